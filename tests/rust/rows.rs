//! Makes the calls of the lines that faces.py writes, in the file that `KEYWRAP_ROWS` names, and prints what they
//! return and write: into a buffer or in place, and as `KEYWRAP_WAY` says into a Vec (`_vec`) or by steps (`_steps`).

use keywrap::steps::{many as many_steps, Operation, Rewrapping, Stopped, Unwrapping, Wrapping};
use keywrap::{Error, Form, Forms, KekSlice, KeptKek, Kind, Rewrapped, Status};

type Result<T> = std::result::Result<T, Error>;

#[link(name = "crypto")]
extern "C" {
    fn AES_set_encrypt_key(kek: *const u8, bits: i32, schedule: *mut [u32; 61]) -> i32;
    fn AES_set_decrypt_key(kek: *const u8, bits: i32, schedule: *mut [u32; 61]) -> i32;
    fn AES_encrypt(block: *const u8, result: *mut u8, schedule: *const [u32; 61]);
    fn AES_decrypt(block: *const u8, result: *mut u8, schedule: *const [u32; 61]);
}

struct Line<'a>(Vec<&'a str>);

impl Line<'_> {
    fn bytes(&self, at: usize) -> Vec<u8> {
        let text = self.0[at].trim_start_matches('-');
        (0..text.len()).step_by(2).map(|at| u8::from_str_radix(&text[at..at + 2], 16).unwrap()).collect()
    }

    fn number(&self, at: usize) -> usize {
        self.0[at].parse().unwrap_or(0)
    }

    fn forms(&self) -> (Forms, bool) {
        let (flags, form) = (self.number(4), |bit| [Form::Plain, Form::Padded][usize::from(bit > 0)]);
        let given = Forms::Given { old: form(flags & 1), new: form(flags & 2) };
        (if flags & 4 > 0 { Forms::Kept } else { given }, flags & 8 > 0)
    }

    /// The AES of libcrypto under a KEK.
    fn aes(&self, at: usize, decrypts: bool) -> impl Fn(&mut [u8; 16]) -> Result<()> {
        let (kek, mut schedule) = (self.bytes(at), [0; 61]);
        let set = if decrypts { AES_set_decrypt_key } else { AES_set_encrypt_key };
        let crypt = if decrypts { AES_decrypt } else { AES_encrypt };
        assert_eq!(unsafe { set(kek.as_ptr(), 8 * kek.len() as i32, &mut schedule) }, 0);
        move |block| {
            unsafe { crypt(block.as_ptr(), block.as_mut_ptr(), &schedule) };
            Ok(())
        }
    }
}

fn digits(bytes: &[u8]) -> String {
    bytes.iter().map(|byte| format!("{byte:02x}")).collect()
}

fn listed<T: ToString>(name: &str, numbers: &[T]) -> String {
    format!(" {name}={}", numbers.iter().map(T::to_string).collect::<Vec<_>>().join(","))
}

/// The status of the C library for an error.
fn status_of(error: Error) -> u8 {
    match error {
        Error::InvalidIv => 2,
        Error::InvalidKekSize { .. } => 3,
        Error::InvalidDataSize | Error::InvalidOutputSize { .. } => 4,
        Error::IntegrityCheckFailed => 5,
        Error::KeyNotPlain => 8,
        other => panic!("{other:?}"),
    }
}

fn wrapped(begun: Result<Wrapping>, line: &Line) -> Result<()> {
    begun?.run(line.aes(1, false)).map_err(|(Stopped::Refused(error) | Stopped::Cipher(error))| error)
}

/// The steps one by one.
fn unwrapped(begun: Result<Unwrapping>, line: &Line) -> Result<(Form, Vec<u8>)> {
    let (decrypt, mut begun) = (line.aes(1, true), begun?);
    while let Some(&(mut block)) = begun.block() {
        decrypt(&mut block)?;
        begun.step(&block)?;
    }
    begun.end_with_form().map(|(key, form)| (form, key.to_vec()))
}

fn rewrapped(begun: Result<Rewrapping>, line: &Line) -> Result<Rewrapped> {
    let (old, encrypt, decrypt) = (line.aes(1, true), line.aes(2, false), line.aes(2, true));
    let ended = begun?.run(|operation, block| match operation {
        Operation::DecryptOld => old(block),
        Operation::EncryptNew => encrypt(block),
        Operation::DecryptNew => decrypt(block),
    });
    ended.map_err(|(Stopped::Refused(error) | Stopped::Cipher(error))| error)
}

/// The answer of a call for one key, and its buffer, if that is printed.
fn one(line: &Line, call: &str, kek: &KekSlice, out: &mut [u8]) -> Result<String> {
    let (data, iv) = (&line.bytes(5)[..], line.bytes(3).try_into().unwrap_or_default());
    let (new_kek, (forms, pass_new)) = (line.bytes(2), line.forms());
    let (nothing, of_len) = (|()| String::new(), |key: &[u8]| format!(" len={}", key.len()));
    let (shown, of_form) = (|out: &[u8]| format!(" out={}", digits(out)), |form: Form| format!(" form={}", form as u8));
    let of_kind = |kind: Kind| format!("{} len={}", of_form(kind.form), kind.key_len);
    let already = |one: Rewrapped| format!(" already={}", one as u8);
    let (made, of_key) = (|out: Vec<u8>| shown(&out), |(_, key): (Form, Vec<u8>)| shown(&key));
    let of_any = |(form, key): (Form, Vec<u8>)| shown(&key) + &of_form(form);
    match call {
        "wrap" => kek.wrap(data, out).map(nothing),
        "wrap_with" => kek.wrap_with_iv(&iv, data, out).map(nothing),
        "wrap_padded" => kek.wrap_with_padding(data, out).map(nothing),
        "unwrap" => kek.unwrap(data, out).map(nothing),
        "unwrap_with" => kek.unwrap_with_iv(&iv, data, out).map(nothing),
        "unwrap_padded" => kek.unwrap_with_padding(data, out).map(of_len),
        "unwrap_any" => kek.unwrap_any(data, out).map(|(form, key)| of_form(form) + &of_len(key)),
        "kind" => kek.kind(data, out).map(of_kind),
        "rewrap" => kek.rewrap(KekSlice::new(&new_kek), out, forms, pass_new).map(already),
        "wrap_in_place" => kek.wrap_in_place(out).map(nothing),
        "wrap_padded_in_place" => kek.wrap_with_padding_in_place(out, line.number(7)).map(nothing),
        "unwrap_in_place" => kek.unwrap_in_place(out).map(|_| String::new()),
        "unwrap_padded_in_place" => kek.unwrap_with_padding_in_place(out).map(|key| of_len(key)),
        "wrap_vec" => kek.wrap_vec(data).map(made),
        "wrap_with_vec" => kek.wrap_with_iv_vec(&iv, data).map(made),
        "wrap_padded_vec" => kek.wrap_with_padding_vec(data).map(made),
        "unwrap_vec" => kek.unwrap_vec(data).map(made),
        "unwrap_with_vec" => kek.unwrap_with_iv_vec(&iv, data).map(made),
        "unwrap_padded_vec" => kek.unwrap_with_padding_vec(data).map(made),
        "unwrap_any_vec" => kek.unwrap_any_vec(data).map(of_any),
        "kind_vec" => kek.kind_vec(data).map(of_kind),
        "wrap_steps" => wrapped(Wrapping::new(data, out), line).map(|()| shown(out)),
        "wrap_with_steps" => wrapped(Wrapping::with_iv(&iv, data, out), line).map(|()| shown(out)),
        "wrap_padded_steps" => wrapped(Wrapping::with_padding(data, out), line).map(|()| shown(out)),
        "unwrap_steps" => unwrapped(Unwrapping::new(data, out), line).map(of_key),
        "unwrap_with_steps" => unwrapped(Unwrapping::with_iv(&iv, data, out), line).map(of_key),
        "unwrap_padded_steps" => unwrapped(Unwrapping::with_padding(data, out), line).map(of_key),
        "unwrap_any_steps" => unwrapped(Unwrapping::in_either_form(data, out), line).map(of_any),
        _ => {
            let ended = rewrapped(Rewrapping::new(data, out, forms, pass_new), line);
            ended.map(|one| shown(out) + &already(one))
        }
    }
}

/// The call by the steps of many keys, over the AES of libcrypto.
fn many_by_steps(
    line: &Line, call: &str, form: Form, slots: &mut [u8], lens: &mut [usize], statuses: &mut [Status],
) -> Result<()> {
    let (old, encrypt) = (line.aes(1, true), line.aes(1, false));
    let ended = match call {
        "wrap_many" => {
            let encrypt = |blocks: &mut [[u8; 16]]| blocks.iter_mut().try_for_each(&encrypt);
            many_steps::wrap(form, slots, line.number(7), statuses.len(), encrypt)
        }
        "unwrap_many" => {
            let decrypt = |blocks: &mut [[u8; 16]]| blocks.iter_mut().try_for_each(&old);
            many_steps::unwrap(form, slots, lens, statuses, decrypt)
        }
        _ => {
            let ((forms, pass_new), encrypt, decrypt) = (line.forms(), line.aes(2, false), line.aes(2, true));
            let cipher = |operation, blocks: &mut [[u8; 16]]| match operation {
                Operation::DecryptOld => blocks.iter_mut().try_for_each(&old),
                Operation::EncryptNew => blocks.iter_mut().try_for_each(&encrypt),
                Operation::DecryptNew => blocks.iter_mut().try_for_each(&decrypt),
            };
            many_steps::rewrap(slots, forms, pass_new, statuses, cipher)
        }
    };
    ended.map_err(|(Stopped::Refused(error) | Stopped::Cipher(error))| error)
}

/// The steps of many keys return and write what the call did, unless it refused a KEK.
fn same_by_steps(
    line: &Line, call: &str, form: Form, before: &[u8], due: (&[u8], &[usize], &[Status]), is: Result<()>,
) {
    if call == "kind_many" || matches!(is, Err(Error::InvalidKekSize { .. })) {
        return;
    }
    let mut slots = before.to_vec();
    let (mut lens, mut statuses) = (vec![77; due.1.len()], vec![Status::default(); due.2.len()]);
    assert_eq!(many_by_steps(line, call, form, &mut slots, &mut lens, &mut statuses), is);
    if call == "wrap_many" {
        // The steps of a wrapping return no statuses: they refuse none.
        statuses.copy_from_slice(due.2);
    }
    assert_eq!((&slots[..], &lens[..], &statuses[..]), due);
}

/// A call for many keys. What it returns of each slot is what the arrays say.
fn many(line: &Line, call: &str, kek: &KekSlice, out: &mut Vec<u8>) -> Result<String> {
    let (padded, (forms, pass_new)) = ([Form::Plain, Form::Padded][line.number(4).min(1)], line.forms());
    let mut statuses = vec![Status::default(); line.number(8)];
    let (mut lens, mut found) = (vec![77; line.number(9)], vec![77; line.number(10)]);
    let (new_kek, given, of_rewrapped) = (line.bytes(2), line.bytes(5), |one: Rewrapped| vec![one as u8]);
    let (new_kek, of_kind) = (KekSlice::new(&new_kek), |one: Kind| vec![one.form as u8, one.key_len as u8]);
    let (all, each_len) = (&mut statuses, &mut lens);
    let before = out.clone();
    // The results of the iterators, a slot each.
    let each: Result<Vec<Result<Vec<u8>>>> = match call {
        "wrap_many" => kek.wrap_many(padded, out, line.number(7), all).map(|()| vec![]),
        "unwrap_many" => kek
            .unwrap_many(padded, out, each_len, all)
            .map(|each| each.map(|key| key.map(<[u8]>::to_vec)).collect()),
        "rewrap_many" => kek
            .rewrap_many(new_kek, out, forms, pass_new, all)
            .map(|each| each.map(|it| it.map(of_rewrapped)).collect()),
        _ => kek
            .kind_many(&given, out, &mut found, each_len, all)
            .map(|each| each.map(|kind| kind.map(of_kind)).collect()),
    };
    same_by_steps(line, call, padded, &before, (&out[..], &lens, &statuses), each.clone().map(|_| ()));
    let each = each?;
    let slot = out.len() / statuses.len().max(1);
    let due = statuses.iter().enumerate().map(|(at, status)| match call {
        "unwrap_many" => status.result().map(|()| out[slot * at + 8..][..lens[at]].to_vec()),
        "kind_many" => status.result().map(|()| vec![found[at], lens[at] as u8]),
        _ => status.rewrapped().map(of_rewrapped),
    });
    assert!(call == "wrap_many" || due.eq(each));
    let status = |one: &Status| one.rewrapped().map_or_else(status_of, |one| one as u8);
    let statuses = listed("statuses", &statuses.iter().map(status).collect::<Vec<_>>());
    Ok(match call {
        "kind_many" => statuses + &listed("forms", &found) + &listed("lens", &lens),
        "unwrap_many" => statuses + &listed("lens", &lens),
        _ => statuses,
    })
}

#[test]
fn rows() {
    let text = std::fs::read_to_string(std::env::var("KEYWRAP_ROWS").unwrap()).unwrap();
    let way = std::env::var("KEYWRAP_WAY").unwrap_or_default();
    for text in text.lines() {
        let line = Line(text.split(' ').collect());
        let (kek, call) = (line.bytes(1), line.0[0]);
        let answer = |kek: &KekSlice| {
            let mut out = if line.0[6] == "-" { line.bytes(5) } else { vec![0x5a; line.number(6)] };
            let found = match call.ends_with("_many") {
                true => many(&line, call, kek, &mut out),
                false => one(&line, &format!("{call}{way}"), kek, &mut out),
            };
            let written = if way.is_empty() { format!(" out={}", digits(&out)) } else { String::new() };
            let more = found.clone().unwrap_or_else(|error| format!(" text={error}"));
            format!("status={}{written}{more}", found.err().map_or(0, status_of))
        };
        let said = answer(KekSlice::new(&kek));
        let again = KeptKek::new(&kek).map_or(said.clone(), |kek| answer(&kek));
        println!("{said}{}", if again == said { String::new() } else { format!(" but by a KeptKek {again}") });
    }
}

// The example of dist/RUST.md comes before this: key wrap by RustCrypto's `aes`, over the published vectors.

use aes::cipher::{generic_array::GenericArray, NewBlockCipher};
use aes::{Aes128, Aes192, Aes256};

fn bytes(digits: &str) -> Vec<u8> {
    let pairs = (0..digits.len()).step_by(2);
    pairs.map(|at| u8::from_str_radix(&digits[at..at + 2], 16).unwrap()).collect()
}

fn check<C: NewBlockCipher + BlockCipher<BlockSize = U16>>(kek: &[u8], key: &[u8], wrapped: &[u8], is_padded: bool) {
    let kek = Kek::new(RustCrypto(C::new(GenericArray::from_slice(kek))));
    let mut damaged = wrapped.to_vec();
    damaged[3] ^= 1;
    let refused = Err(keywrap::Error::IntegrityCheckFailed);
    if is_padded {
        assert_eq!(kek.wrap_with_padding_vec(key).as_deref(), Ok(wrapped));
        assert_eq!(kek.unwrap_with_padding_vec(wrapped).as_deref(), Ok(key));
        assert_eq!(kek.unwrap_with_padding_vec(&damaged), refused);
    } else {
        assert_eq!(kek.wrap_vec(key).as_deref(), Ok(wrapped));
        assert_eq!(kek.unwrap_vec(wrapped).as_deref(), Ok(key));
        assert_eq!(kek.unwrap_vec(&damaged), refused);
    }
}

/// Each line of the file that `VECTORS` names: the form, the KEK, the key and the wrapped key.
#[test]
fn vectors() {
    let text = std::fs::read_to_string(std::env::var("VECTORS").unwrap()).unwrap();
    for line in text.lines() {
        let words: Vec<&str> = line.split(' ').collect();
        let (kek, key, wrapped) = (bytes(words[1]), bytes(words[2]), bytes(words[3]));
        let check = match kek.len() {
            16 => check::<Aes128>,
            24 => check::<Aes192>,
            _ => check::<Aes256>,
        };
        check(&kek, &key, &wrapped, words[0] == "padded");
    }
    println!("{} vectors", text.lines().count());
}

# shellcheck shell=bash disable=SC2086
# The lines that tests/test_recipes.py runs after recipes of docs/RECIPES.md: each part begins with `#: after NAME`.

#: after Import a key into a key store or a hardware module
# A key store gets the key from each file. imported HASH FILE: the first part is as long as the store's key.
imported() {
    local oaep="-pkeyopt rsa_padding_mode:oaep -pkeyopt rsa_oaep_md:$1 -pkeyopt rsa_mgf1_md:$1" ephemeral
    ephemeral=$(head -c 384 "$2" | openssl pkeyutl -decrypt -inkey store.pem $oaep | xxd -p -c 64)
    tail -c +385 "$2" | openssl enc -d -id-aes256-wrap-pad -iv A65959A6 -K "$ephemeral" | cmp - key.der
}
imported sha256 EncryptedKeyMaterial.bin
imported sha256 wrapped.bin
jq -r .ciphertext key.byok | tr -- -_ +/ | base64 -di 2>>log >theirs.bin
imported sha1 theirs.bin

// scalar.rs of luad-core: the display form of a string. It is in no answer, so it is empty.
pub fn escape_bytes(_bytes: &[u8]) -> String {
    String::new()
}

//! What 000 uses of `bincode`, in its index file only, which is not compared.
#[derive(Debug)]
pub struct Error;
pub fn serialize<T>(_: &T) -> Result<Vec<u8>, Error> {
    Err(Error)
}
pub fn deserialize<T>(_: &[u8]) -> Result<T, Error> {
    Err(Error)
}

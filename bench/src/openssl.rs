//! openssl.c, where it could be compiled.

#[rustfmt::skip]
extern "C" {
    fn openssl_counter_mode(key: *const u8, first: *const u8, from: *const u8, length: usize, to: *mut u8) -> bool;
    fn openssl_sha1(bytes: *const u8, length: usize, digest: *mut u8) -> bool;
}

/// `openssl_counter_mode`, which succeeds.
#[inline]
pub fn counter_mode(key: &[u8; 16], first: &[u8; 16], from: &[u8], to: &mut [u8]) {
    assert!(from.len() <= to.len());
    let (key, first, length) = (key.as_ptr(), first.as_ptr(), from.len());
    // SAFETY: the output has room for as many bytes.
    let done = unsafe { openssl_counter_mode(key, first, from.as_ptr(), length, to.as_mut_ptr()) };
    assert!(done);
}

/// `openssl_sha1`, which succeeds.
#[inline]
pub fn sha1(bytes: &[u8]) -> [u8; 20] {
    let mut digest = [0; 20];
    // SAFETY: a digest has 20 bytes.
    let done = unsafe { openssl_sha1(bytes.as_ptr(), bytes.len(), digest.as_mut_ptr()) };
    assert!(done);
    digest
}

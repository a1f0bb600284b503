//! libjpeg-turbo's accurate integer DCT, on samples of 8 bits, where it is installed.

/// 64 samples, and then the coefficients in eighths in their place. The SIMD versions ask for the alignment.
#[derive(Clone, Copy)]
#[repr(C, align(32))]
pub struct Block(pub [i16; 64]);

/// A version of the transform.
pub type Version = unsafe extern "C" fn(*mut i16);

#[cfg(libjpeg)]
extern "C" {
    fn jpeg_fdct_islow(data: *mut i16);
    fn jsimd_fdct_islow_sse2(data: *mut i16);
    fn jsimd_fdct_islow_avx2(data: *mut i16);
}

/// The versions that are installed and that this processor can run, by the instructions that they use.
#[cfg(libjpeg)]
pub fn versions() -> Vec<(&'static str, Version)> {
    let mut all: Vec<(&str, Version)> =
        vec![("C", jpeg_fdct_islow), ("SSE2", jsimd_fdct_islow_sse2)];
    if std::arch::is_x86_feature_detected!("avx2") {
        all.push(("AVX2", jsimd_fdct_islow_avx2));
    }
    all
}

/// There are none.
#[cfg(not(libjpeg))]
pub fn versions() -> Vec<(&'static str, Version)> {
    Vec::new()
}

/// The coefficients of a block of samples from -128 to 127, by one of `versions`.
pub fn forward(version: Version, block: &mut Block) {
    // SAFETY: each version reads and writes 64 numbers, aligned as a block is, and the processor has its instructions.
    unsafe { version(block.0.as_mut_ptr()) }
}

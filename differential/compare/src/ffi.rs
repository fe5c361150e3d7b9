//! The leaves among the functions of include/terrain.h. Those on numbers are safe for every argument
//! that Rust's types allow.

#[repr(C)]
pub struct Degrees {
    pub number: u32,
    pub degrees: f32,
}

#[repr(C)]
pub struct Printed {
    pub number: u32,
    pub length: usize,
}

unsafe extern "C" {
    fn terrain_crc32(bytes: *const u8, len: usize) -> u32;
    fn terrain_crc32_skipping(bytes: *const u8, len: usize, at: usize) -> u32;
    pub safe fn terrain_f32_of_i32(z: i32) -> f32;
    pub safe fn terrain_f32_of_u32(n: u32) -> f32;
    pub safe fn terrain_f32_of_usize(n: usize) -> f32;
    pub safe fn terrain_f32_of_f64(x: f64) -> f32;
    pub safe fn terrain_i32_of_f32(x: f32) -> i32;
    pub safe fn terrain_u32_of_f32(x: f32) -> u32;
    pub safe fn terrain_u8_of_f32(x: f32) -> u32;
    pub safe fn terrain_i16_of_f32(x: f32) -> i32;
    pub safe fn terrain_i16_of_i32(z: i32) -> i32;
    pub safe fn terrain_u32_of_i32(z: i32) -> u32;
    pub safe fn terrain_min(a: f32, b: f32) -> f32;
    pub safe fn terrain_max(a: f32, b: f32) -> f32;
    pub safe fn terrain_clamp(x: f32, lo: f32, hi: f32) -> f32;
    pub safe fn terrain_fabs(x: f32) -> f32;
    pub safe fn terrain_total_cmp(a: f32, b: f32) -> i32;
    pub safe fn terrain_is_finite(x: f32) -> u32;
    pub safe fn terrain_sqrt(x: f32) -> f32;
    /// 0 and the degrees, or 8 and 0.
    pub safe fn terrain_bearing(east: f32, north: f32) -> Degrees;
    pub safe fn terrain_lon_scale_um(lat: i32) -> u32;
    fn terrain_profile_page(
        samples: *const i16,
        count: usize,
        page: u32,
        out: *mut u8,
        room: usize,
    ) -> Printed;
}

/// 0 and the page's length, or the refusal's number and 0.
pub fn profile_page(samples: &[i16], page: u32, out: &mut [u8]) -> Printed {
    let (heights, text) = (samples.as_ptr(), out.as_mut_ptr());
    // SAFETY: pointers and counts are the slices'; only `out` is written.
    unsafe { terrain_profile_page(heights, samples.len(), page, text, out.len()) }
}

pub fn crc32(bytes: &[u8]) -> u32 {
    // SAFETY: pointer and length are the slice's; the function only reads.
    unsafe { terrain_crc32(bytes.as_ptr(), bytes.len()) }
}

pub fn crc32_skipping(bytes: &[u8], at: usize) -> u32 {
    // SAFETY: as above; `at` is a number, and any is allowed.
    unsafe { terrain_crc32_skipping(bytes.as_ptr(), bytes.len(), at) }
}

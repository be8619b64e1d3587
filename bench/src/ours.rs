// The proved calls of crate `bench_calls`, as the archive of `bench_calls_c` exports them. A slice passes as a pointer and a length.
extern "C" {
    fn bench_plain_count(image: *const u8, length: usize) -> u64;
    fn bench_guarded_count(image: *const u8, length: usize) -> u64;
    fn bench_strict_count(image: *const u8, length: usize) -> u64;
    fn bench_region(image: *const u8, length: usize) -> u64;
    fn bench_fmap(image: *const u8, length: usize) -> u64;
    fn bench_signatures(image: *const u8, length: usize) -> u64;
    fn bench_sum(bytes: *const u8, length: usize) -> u64;
    fn bench_area(image: *const u8, length: usize, k: usize) -> u64;
    fn bench_area_name(image: *const u8, length: usize, place: usize) -> u64;
    fn bench_map_at(image: *const u8, length: usize, at: usize, size: usize, k: usize) -> u64;
    fn bench_strict_place(image: *const u8, length: usize, k: usize) -> u64;
    fn bench_plain_step(image: *const u8, length: usize, from: usize) -> u64;
    fn bench_guarded_step(image: *const u8, length: usize, from: usize) -> u64;
    fn bench_name_at(image: *const u8, length: usize, place: usize) -> u64;
    fn bench_content_at(image: *const u8, length: usize, place: usize) -> u64;
    fn bench_plain_place(image: *const u8, length: usize, name: *const u8, named: usize) -> u64;
    fn bench_guarded_place(image: *const u8, length: usize, name: *const u8, named: usize) -> u64;
    fn bench_plain_lookup(image: *const u8, length: usize, name: *const u8, named: usize) -> u64;
    fn bench_guarded_lookup(image: *const u8, length: usize, name: *const u8, named: usize) -> u64;
    fn bench_stage(image: *const u8, length: usize, name: *const u8, named: usize) -> u64;
    fn bench_payload(image: *const u8, length: usize, name: *const u8, named: usize) -> u64;
    fn bench_segment(image: *const u8, length: usize, name: *const u8, named: usize, k: usize) -> u64;
    fn bench_add(image: *mut u8, length: usize, name: *const u8, named: usize, kind: u32, content: *const u8, held: usize)
        -> u64;
    fn bench_replace(image: *mut u8, length: usize, name: *const u8, named: usize, content: *const u8, held: usize) -> u64;
    fn bench_remove(image: *mut u8, length: usize, name: *const u8, named: usize) -> u64;
}

// Each call asks nothing of its arguments but that they are slices.

// The calls over an image (or over any bytes), over an image and a number, and over an image and a name.
macro_rules! safe {
    (image: $($call:ident $exported:ident),*) => {
        $(pub fn $call(image: &[u8]) -> u64 {
            unsafe { $exported(image.as_ptr(), image.len()) }
        })*
    };
    (number: $($call:ident $exported:ident),*) => {
        $(pub fn $call(image: &[u8], number: usize) -> u64 {
            unsafe { $exported(image.as_ptr(), image.len(), number) }
        })*
    };
    (name: $($call:ident $exported:ident),*) => {
        $(pub fn $call(image: &[u8], name: &[u8]) -> u64 {
            unsafe { $exported(image.as_ptr(), image.len(), name.as_ptr(), name.len()) }
        })*
    };
}

safe!(image: plain_count bench_plain_count, guarded_count bench_guarded_count, strict_count bench_strict_count);
safe!(image: region bench_region, fmap bench_fmap, signatures bench_signatures, sum bench_sum);
safe!(number: strict_place bench_strict_place, plain_step bench_plain_step, guarded_step bench_guarded_step);
safe!(number: name_at bench_name_at, content_at bench_content_at, area bench_area, area_name bench_area_name);
safe!(name: plain_place bench_plain_place, guarded_place bench_guarded_place);
safe!(name: plain_lookup bench_plain_lookup, guarded_lookup bench_guarded_lookup);
safe!(name: stage bench_stage, payload bench_payload);

pub fn map_at(image: &[u8], at: usize, size: usize, k: usize) -> u64 {
    unsafe { bench_map_at(image.as_ptr(), image.len(), at, size, k) }
}

pub fn segment(image: &[u8], name: &[u8], k: usize) -> u64 {
    unsafe { bench_segment(image.as_ptr(), image.len(), name.as_ptr(), name.len(), k) }
}

pub fn add(image: &mut [u8], name: &[u8], kind: u32, content: &[u8]) -> u64 {
    unsafe { bench_add(image.as_mut_ptr(), image.len(), name.as_ptr(), name.len(), kind, content.as_ptr(), content.len()) }
}

pub fn replace(image: &mut [u8], name: &[u8], content: &[u8]) -> u64 {
    unsafe { bench_replace(image.as_mut_ptr(), image.len(), name.as_ptr(), name.len(), content.as_ptr(), content.len()) }
}

pub fn remove(image: &mut [u8], name: &[u8]) -> u64 {
    unsafe { bench_remove(image.as_mut_ptr(), image.len(), name.as_ptr(), name.len()) }
}

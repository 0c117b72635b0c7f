//! The board library's functions, linked. Lengths are 64 bits on every machine, as the header has them.

#[link(name = "board", kind = "static")]
extern "C" {
    fn quermanic_fresh(config: *const u8, config_length: u64, image: *mut u8, image_length: u64) -> u8;
    fn quermanic_check(image: *const u8, image_length: u64) -> u8;
    fn quermanic_lamp(image: *const u8, image_length: u64) -> u8;
    fn quermanic_step(
        image: *mut u8,
        image_length: u64,
        record: *const u8,
        record_length: u64,
        answer: *mut u8,
        answer_length: u64,
    ) -> u8;
    fn quermanic_why(image: *const u8, image_length: u64, task: u8, out: *mut u8, out_length: u64) -> u8;
}

pub fn fresh(config: &[u8], image: &mut [u8]) -> u32 {
    let number =
        unsafe { quermanic_fresh(config.as_ptr(), config.len() as u64, image.as_mut_ptr(), image.len() as u64) };
    number.into()
}

pub fn check(image: &[u8]) -> u32 {
    unsafe { quermanic_check(image.as_ptr(), image.len() as u64) }.into()
}

pub fn lamp(image: &[u8]) -> u32 {
    unsafe { quermanic_lamp(image.as_ptr(), image.len() as u64) }.into()
}

pub fn step(image: &mut [u8], record: &[u8], answer: &mut [u8]) -> u32 {
    let number = unsafe {
        quermanic_step(
            image.as_mut_ptr(),
            image.len() as u64,
            record.as_ptr(),
            record.len() as u64,
            answer.as_mut_ptr(),
            answer.len() as u64,
        )
    };
    number.into()
}

pub fn why(image: &[u8], task: u8, out: &mut [u8]) -> u32 {
    let number = unsafe { quermanic_why(image.as_ptr(), image.len() as u64, task, out.as_mut_ptr(), out.len() as u64) };
    number.into()
}

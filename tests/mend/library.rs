//! The board library's mender, on buffers with guard bytes around them. It is linked; where BOARD_CALLS names a
//! program, it is called through it. Built without the feature 'linked' the model stands in its place.

use crate::guarded::Guarded;
use crate::piped::Program;

/// What mending gives: the number, and the bytes of image and list after it.
pub type Given = (u32, Vec<u8>, Vec<u8>);

/// The library: linked, or through a program.
pub struct Library(Option<Program>);

impl Library {
    /// As BOARD_CALLS has it; else what is wrong with its program.
    pub fn open() -> Result<Library, String> {
        let program = std::env::var_os("BOARD_CALLS").map(Program::start);
        Ok(Library(program.transpose()?))
    }

    pub fn mend(&mut self, image: &[u8], list: &[u8]) -> Given {
        let (mut image, mut list) = (Guarded::new(image), Guarded::new(list));
        let number = match &mut self.0 {
            Some(program) => program.call(b'm', image.inside(), &[], list.inside()),
            None => mend(image.inside(), list.inside()),
        };
        (number, image.open(), list.open())
    }
}

#[cfg(feature = "linked")]
fn mend(image: &mut [u8], list: &mut [u8]) -> u32 {
    #[link(name = "board", kind = "static")]
    extern "C" {
        fn quermanic_mend(image: *mut u8, image_length: u64, list: *mut u8, list_length: u64) -> u8;
    }
    unsafe { quermanic_mend(image.as_mut_ptr(), image.len() as u64, list.as_mut_ptr(), list.len() as u64) }.into()
}

/// The model in the library's place, to try the trial itself.
#[cfg(not(feature = "linked"))]
fn mend(image: &mut [u8], list: &mut [u8]) -> u32 {
    if list.len() < crate::LIST {
        return crate::NO_ROOM;
    }
    let mended = model::mend::mend_image(image);
    list.copy_from_slice(&crate::list_bytes(&mended, list));
    image.copy_from_slice(&mended.image);
    mended.number.into()
}

//! The library's calls, and all that is unsafe in this crate.
//!
//! Why each call is sound: a slice gives a pointer that is not null, also where it is empty, with its length, and it lives for the call;
//! what is lent for writing is a buffer of the call's own, so that it overlaps with nothing; the library reads and writes within the
//! lengths it is given, whatever stands there, keeps no pointer, and has no state. That is what `host/link/practice.h` asks and
//! promises.

pub const DRAW: usize = 32;
const ROOM: usize = 2048;
const IMAGE_ROOM: usize = 4096;

/// practice_result of `practice.h`.
#[repr(C)]
struct Outcome {
    number: u8,
    reason: u8,
    _word: u16, // the response's last two bytes as well
    length: u32,
}

#[rustfmt::skip]
extern "C" {
    fn practice_ask(
        image: *const u8, image_len: usize, request: *const u8, request_len: usize, draw: *const u8, draw_len: usize,
        questions: *mut u8, questions_len: usize,
    ) -> Outcome;
    fn practice_settle(
        image: *const u8, image_len: usize, request: *const u8, request_len: usize, draw: *const u8, draw_len: usize,
        answers: *const u8, answers_len: usize, response: *mut u8, response_len: usize, next: *mut u8, next_len: usize,
    ) -> Outcome;
    fn practice_power_off(image: *const u8, image_len: usize, next: *mut u8, next_len: usize) -> Outcome;
    fn practice_personalise(sheet: *const u8, sheet_len: usize, image: *mut u8, image_len: usize) -> u32;
    fn practice_image_length() -> u32;
}

impl Outcome {
    /// The number of bytes written, or the number that says why there are none.
    fn written(&self) -> Result<usize, u8> {
        match self.number {
            0 => Ok(self.length as usize),
            number => Err(number),
        }
    }
}

/// The questions, or the number that says why there are none.
pub fn ask(image: &[u8], request: &[u8], draw: &[u8; DRAW]) -> Result<Vec<u8>, u8> {
    let mut questions = vec![0; ROOM];
    // Sound as said above.
    #[rustfmt::skip]
    let asked = unsafe {
        practice_ask(
            image.as_ptr(), image.len(), request.as_ptr(), request.len(), draw.as_ptr(), draw.len(),
            questions.as_mut_ptr(), questions.len(),
        )
    };
    questions.truncate(asked.written()?);
    Ok(questions)
}

/// The response, the check that refused and the next image, or the number that says why there was no tap.
pub fn settle(image: &[u8], request: &[u8], draw: &[u8; DRAW], answers: &[u8]) -> Result<(Vec<u8>, u8, Vec<u8>), u8> {
    let (mut response, mut next) = (vec![0; ROOM], vec![0; IMAGE_ROOM]);
    // Sound as said above.
    #[rustfmt::skip]
    let settled = unsafe {
        practice_settle(
            image.as_ptr(), image.len(), request.as_ptr(), request.len(), draw.as_ptr(), draw.len(),
            answers.as_ptr(), answers.len(), response.as_mut_ptr(), response.len(), next.as_mut_ptr(), next.len(),
        )
    };
    response.truncate(settled.written()?);
    next.truncate(image_length());
    Ok((response, settled.reason, next))
}

/// The image once the card's power is off, or the number that says why there is none.
pub fn power_off(image: &[u8]) -> Result<Vec<u8>, u8> {
    let mut next = vec![0; IMAGE_ROOM];
    // Sound as said above.
    let outcome = unsafe { practice_power_off(image.as_ptr(), image.len(), next.as_mut_ptr(), next.len()) };
    outcome.written()?;
    next.truncate(image_length());
    Ok(next)
}

/// The fresh card of a sheet, or the number of its first bad line.
pub fn personalise(sheet: &[u8]) -> Result<Vec<u8>, u32> {
    let mut image = vec![0; IMAGE_ROOM];
    // Sound as said above.
    let line = unsafe { practice_personalise(sheet.as_ptr(), sheet.len(), image.as_mut_ptr(), image.len()) };
    image.truncate(image_length());
    match line {
        0 => Ok(image),
        line => Err(line),
    }
}

pub fn image_length() -> usize {
    // It takes nothing.
    unsafe { practice_image_length() as usize }
}

//! The linked library: the functions of the crate `exports` (COMPARE.md).
//!
//! With `--cfg standalone` the model stands in for it, so that the program
//! can be built and tried without the library.

#[cfg(not(standalone))]
pub use library::*;

#[cfg(standalone)]
pub use stand_in::*;

#[cfg(not(standalone))]
mod library {
    use crate::model::replay::Setting;

    mod exports {
        // A slice goes over as its pointer and its length.
        unsafe extern "C" {
            pub safe fn asi_encode_request(kind: u32, address: u32, value: u32) -> u32;
            pub safe fn asi_decode_request(word: u32) -> u32;
            pub safe fn asi_encode_reply(value: u32) -> u32;
            pub safe fn asi_decode_reply(word: u32) -> u32;
            pub fn asi_replay(
                repeaters: u32,
                order_room: u32,
                answer_room: u32,
                words: *mut u32,
                words_length: usize,
                script: *const u32,
                script_length: usize,
                log: *mut u32,
                log_length: usize,
            ) -> usize;
            pub fn asi_replay_image(
                order_room: u32,
                answer_room: u32,
                words: *mut u32,
                words_length: usize,
                script: *const u32,
                script_length: usize,
                log: *mut u32,
                log_length: usize,
            ) -> usize;
            pub fn asi_cycles(words: *const u32, words_length: usize, cycles: u32) -> u32;
        }
    }

    pub fn encode_request(kind: u32, address: u32, value: u32) -> u32 {
        exports::asi_encode_request(kind, address, value)
    }

    pub fn decode_request(word: u32) -> u32 {
        exports::asi_decode_request(word)
    }

    pub fn encode_reply(value: u32) -> u32 {
        exports::asi_encode_reply(value)
    }

    pub fn decode_reply(word: u32) -> u32 {
        exports::asi_decode_reply(word)
    }

    /// The lines 0 to 3 are that many repeaters over a bench rack, any other
    /// is an image rack, which has a function of its own.
    pub fn replay(setting: Setting, words: &mut [u32], script: &[u32], log: &mut [u32]) -> usize {
        // SAFETY: each pointer and length are those of one slice, which is
        // lent for the call: words and log to be written, script to be read.
        unsafe {
            if setting.line > 3 {
                exports::asi_replay_image(
                    setting.order_room,
                    setting.answer_room,
                    words.as_mut_ptr(),
                    words.len(),
                    script.as_ptr(),
                    script.len(),
                    log.as_mut_ptr(),
                    log.len(),
                )
            } else {
                exports::asi_replay(
                    setting.line,
                    setting.order_room,
                    setting.answer_room,
                    words.as_mut_ptr(),
                    words.len(),
                    script.as_ptr(),
                    script.len(),
                    log.as_mut_ptr(),
                    log.len(),
                )
            }
        }
    }

    /// The words are lent to be written, so that a library that does write
    /// them is found out and does no harm.
    pub fn cycles(words: &mut [u32], cycles: u32) -> u32 {
        // SAFETY: pointer and length are those of one slice.
        unsafe { exports::asi_cycles(words.as_mut_ptr(), words.len(), cycles) }
    }
}

#[cfg(standalone)]
mod stand_in {
    use crate::model;

    pub use crate::model::{decode_reply, decode_request, encode_reply, encode_request, replay};

    pub fn cycles(words: &mut [u32], cycles: u32) -> u32 {
        model::cycles(words, cycles)
    }
}

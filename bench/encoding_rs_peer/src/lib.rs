// C functions around encoding_rs's Decoder and Encoder, for the benchmark.
use encoding_rs::{CoderResult, Decoder, Encoder, EncoderResult, Encoding, BIG5, EUC_KR, GBK, SHIFT_JIS, WINDOWS_1252, WINDOWS_874};

fn encoding(page: u16) -> &'static Encoding {
    match page {
        932 => SHIFT_JIS,
        936 => GBK,
        949 => EUC_KR,
        950 => BIG5,
        874 => WINDOWS_874,
        _ => WINDOWS_1252,
    }
}

#[no_mangle]
pub extern "C" fn ers_decoder(page: u16) -> *mut Decoder {
    Box::into_raw(Box::new(encoding(page).new_decoder_without_bom_handling()))
}

#[no_mangle]
pub extern "C" fn ers_encoder(page: u16) -> *mut Encoder {
    Box::into_raw(Box::new(encoding(page).new_encoder()))
}

/// A fresh state in the same place.
#[no_mangle]
pub unsafe extern "C" fn ers_reset_decoder(d: *mut Decoder, page: u16) {
    *d = encoding(page).new_decoder_without_bom_handling();
}

#[no_mangle]
pub unsafe extern "C" fn ers_reset_encoder(e: *mut Encoder, page: u16) {
    *e = encoding(page).new_encoder();
}

/// Decodes a block, with U+FFFD for what is not a character; the units written, or -1 if the room did not do.
#[no_mangle]
pub unsafe extern "C" fn ers_decode(d: *mut Decoder, src: *const u8, n: usize, last: i32, dst: *mut u16, room: usize) -> isize {
    let src = std::slice::from_raw_parts(src, n);
    let dst = std::slice::from_raw_parts_mut(dst, room);
    let (result, _, written, _) = (*d).decode_to_utf16(src, dst, last != 0);
    match result {
        CoderResult::InputEmpty => written as isize,
        CoderResult::OutputFull => -1,
    }
}

/// Encodes a block, with 3F for each character without a code; the bytes written, or -1 if the room did not do.
#[no_mangle]
pub unsafe extern "C" fn ers_encode(e: *mut Encoder, src: *const u16, n: usize, last: i32, dst: *mut u8, room: usize) -> isize {
    let src = std::slice::from_raw_parts(src, n);
    let dst = std::slice::from_raw_parts_mut(dst, room);
    let mut from = 0;
    let mut to = 0;
    loop {
        let (result, read, written) = (*e).encode_from_utf16_without_replacement(&src[from..], &mut dst[to..], last != 0);
        from += read;
        to += written;
        match result {
            EncoderResult::InputEmpty => return to as isize,
            EncoderResult::OutputFull => return -1,
            EncoderResult::Unmappable(_) => {
                if to == room {
                    return -1;
                }
                dst[to] = b'?';
                to += 1;
            }
        }
    }
}

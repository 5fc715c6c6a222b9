use std::ffi::{c_char, CString};

extern "C" {
    fn area(width: i32, height: i32) -> i32;
    fn count_words(text: *const c_char) -> i32;
}

fn main() {
    let text = CString::new("one  two three").expect("no NUL");
    // SAFETY: both read their arguments alone, and the text ends with a NUL.
    let (area, words) = unsafe { (area(3, 4), count_words(text.as_ptr())) };
    println!("area {area}, words {words}");
}

//! An archive of the unit, linked as a shared object and opened beside others of the same names.

use std::ffi::{c_char, c_int, c_void, CStr, CString};
use std::mem::transmute;

extern "C" {
    fn dlopen(path: *const c_char, how: c_int) -> *mut c_void;
    fn dlsym(object: *mut c_void, name: *const c_char) -> *mut c_void;
    fn dlerror() -> *const c_char;
}

/// The number that Linux gives to an object whose names are bound before any call and seen by no other object.
const BOUND_AND_LOCAL: c_int = 2;

/// The functions of `unit/include/tazbilk.h`.
type Allot = unsafe extern "C" fn(*const u8, usize, *mut u8, usize, *mut u8, usize, *mut [u64; 3]);
type Review =
    unsafe extern "C" fn(*const u8, usize, *const u8, usize, *mut u8, usize, *mut [u64; 4]);

/// The two calls of an archive; its object stays open until the process ends.
pub struct Shared {
    allot: Allot,
    review: Review,
}

/// What kept the last object from being opened, or a name from being found.
fn reason() -> String {
    // SAFETY: the text, where there is one, ends with a zero byte and stays until the next call of this kind.
    unsafe {
        match dlerror() {
            text if text.is_null() => "no reason given".to_string(),
            text => CStr::from_ptr(text).to_string_lossy().into_owned(),
        }
    }
}

/// The place that a call of the system gave, unless it is null.
fn given(place: *mut c_void) -> Result<*mut c_void, String> {
    if place.is_null() {
        Err(reason())
    } else {
        Ok(place)
    }
}

impl Shared {
    /// Opens a shared object.
    pub fn open(path: &str) -> Result<Self, String> {
        let path = CString::new(path).map_err(|error| error.to_string())?;
        // SAFETY: path and names end with a zero byte; the object is an archive of the unit, whose functions have these types.
        unsafe {
            let object = given(dlopen(path.as_ptr(), BOUND_AND_LOCAL))?;
            let allot = given(dlsym(object, c"tazbilk_allot".as_ptr()))?;
            let review = given(dlsym(object, c"tazbilk_review".as_ptr()))?;
            Ok(Shared {
                allot: transmute::<*mut c_void, Allot>(allot),
                review: transmute::<*mut c_void, Review>(review),
            })
        }
    }

    /// The numbers of one allotment call.
    pub fn allot(&self, file: &[u8], answer: &mut [u8], work: &mut [u8]) -> [u64; 3] {
        let mut result = [0; 3];
        // SAFETY: the unit reads the file and writes the areas and the result within the lengths given, and keeps none of them.
        unsafe {
            (self.allot)(
                file.as_ptr(),
                file.len(),
                answer.as_mut_ptr(),
                answer.len(),
                work.as_mut_ptr(),
                work.len(),
                &mut result,
            );
        }
        result
    }

    /// The numbers of one review.
    pub fn review(&self, file: &[u8], list: &[u8], work: &mut [u8]) -> [u64; 4] {
        let mut result = [0; 4];
        // SAFETY: the unit reads the file and the list and writes the work area and the result within the lengths given, and keeps none of them.
        unsafe {
            (self.review)(
                file.as_ptr(),
                file.len(),
                list.as_ptr(),
                list.len(),
                work.as_mut_ptr(),
                work.len(),
                &mut result,
            );
        }
        result
    }
}

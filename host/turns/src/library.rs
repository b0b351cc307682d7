//! A build of the library as a shared object, which can be loaded beside another one: each keeps its own functions.

use std::ffi::{c_char, c_int, c_void, CStr, CString};
use std::io;
use std::os::unix::ffi::OsStrExt;
use std::path::{Path, PathBuf};

extern "C" {
    fn dlopen(path: *const c_char, flags: c_int) -> *mut c_void;
    fn dlsym(library: *mut c_void, name: *const c_char) -> *mut c_void;
    fn dlerror() -> *const c_char;
}

/// All names are found when it is loaded, and none of them is seen by other libraries: RTLD_NOW, and RTLD_LOCAL, which is 0.
const NOW_AND_LOCAL: c_int = 2;

/// The function of check.c, which each build has beside its own: builds may answer with structs of different lengths.
const NAME: &CStr = c"turns_check";
type Check = unsafe extern "C" fn(*const u16, usize, *mut [u32; 3]);

/// What a check answers in every build; where a rule is broken is not told.
#[derive(Clone, Copy, Debug, PartialEq, Eq)]
pub struct Told {
    pub number: u32,
    pub rule: u32,
    pub value: u32,
}

pub struct Library {
    pub path: PathBuf,
    check: Check,
}

fn why() -> io::Error {
    let said = unsafe { dlerror() };
    let text = match said.is_null() {
        true => "not found".into(),
        false => unsafe { CStr::from_ptr(said) }.to_string_lossy().into_owned(),
    };
    io::Error::other(text)
}

impl Library {
    /// Loads a library; it stays until the process ends.
    pub fn load(path: &Path) -> io::Result<Library> {
        let path = path
            .canonicalize()
            .map_err(|error| io::Error::other(format!("{}: {error}", path.display())))?;
        let name = CString::new(path.as_os_str().as_bytes())?;
        let library = unsafe { dlopen(name.as_ptr(), NOW_AND_LOCAL) };
        if library.is_null() {
            return Err(why());
        }
        let check = unsafe { dlsym(library, NAME.as_ptr()) };
        if check.is_null() {
            return Err(why());
        }
        let check = unsafe { std::mem::transmute::<*mut c_void, Check>(check) };
        Ok(Library { path, check })
    }

    /// The check of an image, as the build's own header declares it.
    pub fn check(&self, image: &[u16]) -> Told {
        let mut told = [0; 3];
        unsafe { (self.check)(image.as_ptr(), image.len(), &mut told) };
        let [number, rule, value] = told;
        Told { number, rule, value }
    }
}

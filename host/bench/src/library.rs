//! A shared library with the exported calls of some build of the manager, loaded while the program runs.
//!
//! This is the only module with `unsafe`: everything that it gives out is safe, if the file is what it is said to be.

use std::ffi::{c_char, c_int, c_void, CStr, CString};
use std::os::unix::ffi::OsStrExt;
use std::path::Path;

extern "C" {
    fn dlopen(file: *const c_char, flags: c_int) -> *mut c_void;
    fn dlsym(library: *mut c_void, name: *const c_char) -> *mut c_void;
    fn dlerror() -> *const c_char;
}

/// Resolve every name at once.
const RTLD_NOW: c_int = 2;

type Format = unsafe extern "C" fn(*mut u8, usize, *const u8, usize) -> i64;
type Add = unsafe extern "C" fn(*mut u8, usize, *mut u8, usize, u16, *const u8, usize) -> i64;
type Remove = unsafe extern "C" fn(*mut u8, usize, *mut u8, usize, u16) -> i64;
type Replace = unsafe extern "C" fn(*mut u8, usize, *mut u8, usize, u16, *const u8, usize) -> i64;
type Read = unsafe extern "C" fn(*const u8, usize, *const u8, usize, u16, u64, *mut u8, usize) -> i64;
type Breaks = unsafe extern "C" fn(*const u8, usize, u16) -> i64;
type Free = unsafe extern "C" fn(*const u8, usize) -> i64;
type Check = unsafe extern "C" fn(*const u8, usize, *const u8, usize) -> i64;
type Which = unsafe extern "C" fn(*const u8, usize, u64, *mut u16, usize) -> i64;

/// The calls of include/evdisk.h. Builds from before W1 have no replace, and those from before W4 no which. The library
/// stays loaded to the end of the program.
#[derive(Debug)]
pub struct Library {
    format: Format,
    add: Add,
    remove: Remove,
    replace: Option<Replace>,
    read: Read,
    breaks: Breaks,
    free: Free,
    check: Check,
    which: Option<Which>,
}

/// What the loader says of its last failure, without the file's name, which it puts in front.
fn failure(file: &CStr) -> String {
    // SAFETY: the loader has just failed in this thread, so it answers a text that ends with a zero byte, and keeps it
    // until the thread calls it again.
    let text = unsafe { CStr::from_ptr(dlerror()) }.to_string_lossy();
    let name = format!("{}: ", file.to_string_lossy());
    text.strip_prefix(&name).unwrap_or(&text).into()
}

/// The address of a name in a library that was loaded.
fn address(library: *mut c_void, name: &CStr) -> Result<*mut c_void, String> {
    // SAFETY: the library was loaded and is never closed, and the name ends with a zero byte.
    let address = unsafe { dlsym(library, name.as_ptr()) };
    match address.is_null() {
        true => Err(format!("it has no {}: is it a build of the manager?", name.to_string_lossy())),
        false => Ok(address),
    }
}

impl Library {
    /// Loads a file, which has to be a build of the manager: who names another one gets whatever its code does.
    pub fn load(file: &Path) -> Result<Library, String> {
        // a name without a slash would be looked for in the system's folders
        let file = file.canonicalize().map_err(|e| e.to_string())?;
        let file = CString::new(file.as_os_str().as_bytes()).map_err(|e| e.to_string())?;
        // SAFETY: the name ends with a zero byte. Loading runs what the file wants to run at its start, which is nothing
        // in a build of the manager.
        let library = unsafe { dlopen(file.as_ptr(), RTLD_NOW) };
        if library.is_null() {
            return Err(failure(&file));
        }
        let (format, add) = (address(library, c"evdisk_format")?, address(library, c"evdisk_add")?);
        let (remove, read) = (address(library, c"evdisk_remove")?, address(library, c"evdisk_read")?);
        let (breaks, free) = (address(library, c"evdisk_breaks")?, address(library, c"evdisk_free")?);
        let check = address(library, c"evdisk_check")?;
        let (replace, which) = (address(library, c"evdisk_replace").ok(), address(library, c"evdisk_which").ok());
        // SAFETY: in a build of the manager these names are functions of the types above, which are those of
        // include/evdisk.h, and no address is null.
        unsafe {
            Ok(Library {
                format: std::mem::transmute::<*mut c_void, Format>(format),
                add: std::mem::transmute::<*mut c_void, Add>(add),
                remove: std::mem::transmute::<*mut c_void, Remove>(remove),
                replace: replace.map(|replace| std::mem::transmute::<*mut c_void, Replace>(replace)),
                read: std::mem::transmute::<*mut c_void, Read>(read),
                breaks: std::mem::transmute::<*mut c_void, Breaks>(breaks),
                free: std::mem::transmute::<*mut c_void, Free>(free),
                check: std::mem::transmute::<*mut c_void, Check>(check),
                which: which.map(|which| std::mem::transmute::<*mut c_void, Which>(which)),
            })
        }
    }
}

/// The calls on slices. SAFETY of all: pointers and lengths are those of slices, and a slice that is written overlaps no
/// other.
impl Library {
    pub fn format(&self, cat: &mut [u8], disk: &[u8]) -> i64 {
        // SAFETY: as said above.
        unsafe { (self.format)(cat.as_mut_ptr(), cat.len(), disk.as_ptr(), disk.len()) }
    }

    pub fn add(&self, cat: &mut [u8], disk: &mut [u8], id: u16, content: &[u8]) -> i64 {
        let (cat, cat_length) = (cat.as_mut_ptr(), cat.len());
        let (disk, disk_length) = (disk.as_mut_ptr(), disk.len());
        // SAFETY: as said above.
        unsafe { (self.add)(cat, cat_length, disk, disk_length, id, content.as_ptr(), content.len()) }
    }

    pub fn remove(&self, cat: &mut [u8], disk: &mut [u8], id: u16) -> i64 {
        // SAFETY: as said above.
        unsafe { (self.remove)(cat.as_mut_ptr(), cat.len(), disk.as_mut_ptr(), disk.len(), id) }
    }

    /// Whether the build can replace.
    pub fn has_replace(&self) -> bool {
        self.replace.is_some()
    }

    pub fn replace(&self, cat: &mut [u8], disk: &mut [u8], id: u16, content: &[u8]) -> i64 {
        let replace = self.replace.expect("only builds that have it are asked");
        let (cat, cat_length) = (cat.as_mut_ptr(), cat.len());
        let (disk, disk_length) = (disk.as_mut_ptr(), disk.len());
        // SAFETY: as said above.
        unsafe { replace(cat, cat_length, disk, disk_length, id, content.as_ptr(), content.len()) }
    }

    pub fn read(&self, cat: &[u8], disk: &[u8], id: u16, first: u64, out: &mut [u8]) -> i64 {
        let (cat, cat_length) = (cat.as_ptr(), cat.len());
        let (disk, disk_length) = (disk.as_ptr(), disk.len());
        // SAFETY: as said above.
        unsafe { (self.read)(cat, cat_length, disk, disk_length, id, first, out.as_mut_ptr(), out.len()) }
    }

    pub fn breaks(&self, cat: &[u8], id: u16) -> i64 {
        // SAFETY: as said above.
        unsafe { (self.breaks)(cat.as_ptr(), cat.len(), id) }
    }

    pub fn free(&self, cat: &[u8]) -> i64 {
        // SAFETY: as said above.
        unsafe { (self.free)(cat.as_ptr(), cat.len()) }
    }

    pub fn check(&self, cat: &[u8], disk: &[u8]) -> i64 {
        // SAFETY: as said above.
        unsafe { (self.check)(cat.as_ptr(), cat.len(), disk.as_ptr(), disk.len()) }
    }

    /// Whether the build can list removals.
    pub fn has_which(&self) -> bool {
        self.which.is_some()
    }

    pub fn which(&self, cat: &[u8], n: u64, list: &mut [u16]) -> i64 {
        let which = self.which.expect("only builds that have it are asked");
        // SAFETY: as said above.
        unsafe { which(cat.as_ptr(), cat.len(), n, list.as_mut_ptr(), list.len()) }
    }
}

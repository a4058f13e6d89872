//! The proved library's C face, and a safe function over each of its calls.
//!
//! `include/panel.h` says what each call does. A slice passes as a pointer and a length in elements.

use std::os::raw::c_float;

/// A session's header: w, h, left, top, width and height of the lock, and the kind and the pattern of its setting.
pub type Header = [u32; 8];

/// A setting of clarity as a caller gives it, lawful or not: its kind, and its single by the pattern.
#[derive(Clone, Copy, Debug, PartialEq, Eq)]
pub struct Setting {
    pub kind: u32,
    pub bits: u32,
}

pub const STANDARD: Setting = Setting { kind: 0, bits: 0 };

impl Setting {
    fn threshold(self) -> c_float {
        f32::from_bits(self.bits)
    }
}

/// How many times a picture is enlarged; a session's screen, which has calls of its own.
#[derive(Clone, Copy, Debug, PartialEq, Eq)]
pub enum Screen {
    Three,
    Nine,
}

impl Screen {
    /// The words along a side of a block.
    pub fn side(self) -> usize {
        match self {
            Screen::Three => 3,
            Screen::Nine => 9,
        }
    }

    /// The words of a block.
    pub fn block(self) -> usize {
        self.side() * self.side()
    }
}

/// One paint of a list, as the C header has it.
#[repr(C)]
#[derive(Clone, Copy, Debug, PartialEq, Eq)]
pub struct Item {
    pub column: u32,
    pub row: u32,
    pub word: u32,
}

mod c {
    use super::{c_float, Header, Item};

    extern "C" {
        pub fn panel_root(x: c_float, root: *mut c_float) -> u32;
        pub fn panel_distance(p: u32, q: u32) -> c_float;
        pub fn panel_nearness(p: u32, q: u32) -> u32;
        pub fn panel_scale(
            w: u32,
            h: u32,
            clarity: u32,
            threshold: c_float,
            picture: *const u32,
            picture_len: usize,
            output: *mut u32,
            output_len: usize,
            singles: *mut c_float,
            singles_len: usize,
            bytes: *mut u8,
            bytes_len: usize,
        ) -> u32;
        pub fn panel_scale9x(
            w: u32,
            h: u32,
            clarity: u32,
            threshold: c_float,
            picture: *const u32,
            picture_len: usize,
            output: *mut u32,
            output_len: usize,
            middle: *mut u32,
            middle_len: usize,
            singles: *mut c_float,
            singles_len: usize,
            bytes: *mut u8,
            bytes_len: usize,
        ) -> u32;
        pub fn panel_scale_palette(
            w: u32,
            h: u32,
            clarity: u32,
            threshold: c_float,
            picture: *const u32,
            picture_len: usize,
            palette: *const u32,
            palette_len: usize,
            replaced: *mut u32,
            replaced_len: usize,
            output: *mut u32,
            output_len: usize,
            singles: *mut c_float,
            singles_len: usize,
            bytes: *mut u8,
            bytes_len: usize,
        ) -> u32;
        pub fn panel_scale9x_palette(
            w: u32,
            h: u32,
            clarity: u32,
            threshold: c_float,
            picture: *const u32,
            picture_len: usize,
            palette: *const u32,
            palette_len: usize,
            replaced: *mut u32,
            replaced_len: usize,
            output: *mut u32,
            output_len: usize,
            middle: *mut u32,
            middle_len: usize,
            singles: *mut c_float,
            singles_len: usize,
            bytes: *mut u8,
            bytes_len: usize,
        ) -> u32;
        pub fn panel_read_page(
            file: *const u8,
            file_len: usize,
            picture: *mut u32,
            picture_len: usize,
            w: *mut u32,
            h: *mut u32,
        ) -> u32;
    }

    /// Declares the six calls of a session: those of the two screens differ by their names alone.
    macro_rules! session {
        ($open:ident, $lock:ident, $paint:ident, $paint_list:ident, $refresh:ident, $show:ident) => {
            extern "C" {
                pub fn $open(
                    w: u32,
                    h: u32,
                    clarity: u32,
                    threshold: c_float,
                    picture: *const u32,
                    picture_len: usize,
                    output: *mut u32,
                    output_len: usize,
                    marks: *mut u8,
                    marks_len: usize,
                    header: *mut Header,
                    stale: *mut u32,
                ) -> u32;
                pub fn $paint(
                    header: *const Header,
                    picture: *mut u32,
                    picture_len: usize,
                    marks: *mut u8,
                    marks_len: usize,
                    column: u32,
                    row: u32,
                    word: u32,
                    changed: *mut u32,
                    stale: *mut u32,
                ) -> u32;
                pub fn $paint_list(
                    header: *const Header,
                    picture: *mut u32,
                    picture_len: usize,
                    marks: *mut u8,
                    marks_len: usize,
                    items: *const Item,
                    items_len: usize,
                    stale: *mut u32,
                ) -> u32;
                pub fn $refresh(
                    header: *const Header,
                    picture: *const u32,
                    picture_len: usize,
                    output: *mut u32,
                    output_len: usize,
                    marks: *mut u8,
                    marks_len: usize,
                    n: u32,
                    drawn: *mut u32,
                    left: *mut u32,
                ) -> u32;
                pub fn $show(
                    header: *const Header,
                    output: *const u32,
                    output_len: usize,
                    marks: *const u8,
                    marks_len: usize,
                    bx: u32,
                    by: u32,
                    words: *mut u32,
                ) -> u32;
                pub fn $lock(
                    header: *const Header,
                    left: u32,
                    top: u32,
                    width: u32,
                    height: u32,
                    locked: *mut Header,
                ) -> u32;
            }
        };
    }

    session!(panel_open, panel_lock, panel_paint, panel_paint_list, panel_refresh, panel_show);
    session!(panel9_open, panel9_lock, panel9_paint, panel9_paint_list, panel9_refresh, panel9_show);
}

/// What the numbers behind pointers hold before a call: a call must write every one of them.
const UNWRITTEN: u32 = 0xdead_beef;

/// Makes a call that is lent a header, which it has to leave as it is.
fn lend(header: Header, call: impl FnOnce(*const Header) -> u32) -> u32 {
    let mut lent = header;
    let refusal = call(&raw mut lent);
    assert_eq!(lent, header, "a header that was lent has been written");
    refusal
}

pub fn root(x: f32) -> (u32, f32) {
    let mut root = f32::from_bits(UNWRITTEN);
    let refusal = unsafe { c::panel_root(x, &mut root) };
    (refusal, root)
}

pub fn distance(p: u32, q: u32) -> f32 {
    unsafe { c::panel_distance(p, q) }
}

pub fn nearness(p: u32, q: u32) -> u32 {
    unsafe { c::panel_nearness(p, q) }
}

pub fn scale(
    [w, h]: [u32; 2],
    setting: Setting,
    picture: &[u32],
    output: &mut [u32],
    singles: &mut [f32],
    bytes: &mut [u8],
) -> u32 {
    unsafe {
        c::panel_scale(
            w,
            h,
            setting.kind,
            setting.threshold(),
            picture.as_ptr(),
            picture.len(),
            output.as_mut_ptr(),
            output.len(),
            singles.as_mut_ptr(),
            singles.len(),
            bytes.as_mut_ptr(),
            bytes.len(),
        )
    }
}

pub fn scale9x(
    [w, h]: [u32; 2],
    setting: Setting,
    picture: &[u32],
    output: &mut [u32],
    middle: &mut [u32],
    singles: &mut [f32],
    bytes: &mut [u8],
) -> u32 {
    unsafe {
        c::panel_scale9x(
            w,
            h,
            setting.kind,
            setting.threshold(),
            picture.as_ptr(),
            picture.len(),
            output.as_mut_ptr(),
            output.len(),
            middle.as_mut_ptr(),
            middle.len(),
            singles.as_mut_ptr(),
            singles.len(),
            bytes.as_mut_ptr(),
            bytes.len(),
        )
    }
}

/// A palette, and the buffer that takes the picture replaced by its entries.
pub struct Palette<'a> {
    pub entries: &'a [u32],
    pub replaced: &'a mut [u32],
}

pub fn scale_palette(
    [w, h]: [u32; 2],
    setting: Setting,
    picture: &[u32],
    palette: Palette,
    output: &mut [u32],
    singles: &mut [f32],
    bytes: &mut [u8],
) -> u32 {
    unsafe {
        c::panel_scale_palette(
            w,
            h,
            setting.kind,
            setting.threshold(),
            picture.as_ptr(),
            picture.len(),
            palette.entries.as_ptr(),
            palette.entries.len(),
            palette.replaced.as_mut_ptr(),
            palette.replaced.len(),
            output.as_mut_ptr(),
            output.len(),
            singles.as_mut_ptr(),
            singles.len(),
            bytes.as_mut_ptr(),
            bytes.len(),
        )
    }
}

#[allow(clippy::too_many_arguments)]
pub fn scale9x_palette(
    [w, h]: [u32; 2],
    setting: Setting,
    picture: &[u32],
    palette: Palette,
    output: &mut [u32],
    middle: &mut [u32],
    singles: &mut [f32],
    bytes: &mut [u8],
) -> u32 {
    unsafe {
        c::panel_scale9x_palette(
            w,
            h,
            setting.kind,
            setting.threshold(),
            picture.as_ptr(),
            picture.len(),
            palette.entries.as_ptr(),
            palette.entries.len(),
            palette.replaced.as_mut_ptr(),
            palette.replaced.len(),
            output.as_mut_ptr(),
            output.len(),
            middle.as_mut_ptr(),
            middle.len(),
            singles.as_mut_ptr(),
            singles.len(),
            bytes.as_mut_ptr(),
            bytes.len(),
        )
    }
}

#[derive(Debug, PartialEq, Eq)]
pub struct Opened {
    pub refusal: u32,
    pub header: Header,
    pub stale: u32,
}

pub fn open(
    screen: Screen,
    [w, h]: [u32; 2],
    setting: Setting,
    picture: &[u32],
    output: &mut [u32],
    marks: &mut [u8],
) -> Opened {
    let call = match screen {
        Screen::Three => c::panel_open,
        Screen::Nine => c::panel9_open,
    };
    let mut header = [UNWRITTEN; 8];
    let mut stale = UNWRITTEN;
    let refusal = unsafe {
        call(
            w,
            h,
            setting.kind,
            setting.threshold(),
            picture.as_ptr(),
            picture.len(),
            output.as_mut_ptr(),
            output.len(),
            marks.as_mut_ptr(),
            marks.len(),
            &mut header,
            &mut stale,
        )
    };
    Opened { refusal, header, stale }
}

#[derive(Debug, PartialEq, Eq)]
pub struct Painted {
    pub refusal: u32,
    pub changed: u32,
    pub stale: u32,
}

pub fn paint(screen: Screen, header: Header, picture: &mut [u32], marks: &mut [u8], item: Item) -> Painted {
    let call = match screen {
        Screen::Three => c::panel_paint,
        Screen::Nine => c::panel9_paint,
    };
    let Item { column, row, word } = item;
    let (mut changed, mut stale) = (UNWRITTEN, UNWRITTEN);
    let refusal = lend(header, |header| unsafe {
        call(
            header,
            picture.as_mut_ptr(),
            picture.len(),
            marks.as_mut_ptr(),
            marks.len(),
            column,
            row,
            word,
            &mut changed,
            &mut stale,
        )
    });
    Painted { refusal, changed, stale }
}

#[derive(Debug, PartialEq, Eq)]
pub struct PaintedList {
    pub refusal: u32,
    pub stale: u32,
}

pub fn paint_list(
    screen: Screen,
    header: Header,
    picture: &mut [u32],
    marks: &mut [u8],
    items: &[Item],
) -> PaintedList {
    let call = match screen {
        Screen::Three => c::panel_paint_list,
        Screen::Nine => c::panel9_paint_list,
    };
    let mut stale = UNWRITTEN;
    let refusal = lend(header, |header| unsafe {
        call(
            header,
            picture.as_mut_ptr(),
            picture.len(),
            marks.as_mut_ptr(),
            marks.len(),
            items.as_ptr(),
            items.len(),
            &mut stale,
        )
    });
    PaintedList { refusal, stale }
}

#[derive(Debug, PartialEq, Eq)]
pub struct Refreshed {
    pub refusal: u32,
    pub drawn: u32,
    pub left: u32,
}

pub fn refresh(
    screen: Screen,
    header: Header,
    picture: &[u32],
    output: &mut [u32],
    marks: &mut [u8],
    n: u32,
) -> Refreshed {
    let call = match screen {
        Screen::Three => c::panel_refresh,
        Screen::Nine => c::panel9_refresh,
    };
    let (mut drawn, mut left) = (UNWRITTEN, UNWRITTEN);
    let refusal = lend(header, |header| unsafe {
        call(
            header,
            picture.as_ptr(),
            picture.len(),
            output.as_mut_ptr(),
            output.len(),
            marks.as_mut_ptr(),
            marks.len(),
            n,
            &mut drawn,
            &mut left,
        )
    });
    Refreshed { refusal, drawn, left }
}

#[derive(Debug, PartialEq, Eq)]
pub struct Shown {
    pub refusal: u32,
    pub words: Vec<u32>,
}

/// Words behind those of a block, which a show has to leave as they are.
const BEHIND: usize = 16;

pub fn show(screen: Screen, header: Header, output: &[u32], marks: &[u8], bx: u32, by: u32) -> Shown {
    let call = match screen {
        Screen::Three => c::panel_show,
        Screen::Nine => c::panel9_show,
    };
    let mut words = vec![UNWRITTEN; screen.block() + BEHIND];
    let refusal = lend(header, |header| unsafe {
        call(header, output.as_ptr(), output.len(), marks.as_ptr(), marks.len(), bx, by, words.as_mut_ptr())
    });
    let behind = words.split_off(screen.block());
    assert_eq!(behind, [UNWRITTEN; BEHIND], "words behind a block have been written");
    Shown { refusal, words }
}

#[derive(Debug, PartialEq, Eq)]
pub struct Locked {
    pub refusal: u32,
    pub header: Header,
}

pub fn lock(screen: Screen, header: Header, [left, top, width, height]: [u32; 4]) -> Locked {
    let call = match screen {
        Screen::Three => c::panel_lock,
        Screen::Nine => c::panel9_lock,
    };
    let mut locked = [UNWRITTEN; 8];
    let refusal = lend(header, |header| unsafe { call(header, left, top, width, height, &mut locked) });
    Locked { refusal, header: locked }
}

#[derive(Debug, PartialEq, Eq)]
pub struct Page {
    pub refusal: u32,
    pub w: u32,
    pub h: u32,
}

pub fn read_page(file: &[u8], picture: &mut [u32]) -> Page {
    let (mut w, mut h) = (UNWRITTEN, UNWRITTEN);
    let refusal =
        unsafe { c::panel_read_page(file.as_ptr(), file.len(), picture.as_mut_ptr(), picture.len(), &mut w, &mut h) };
    Page { refusal, w, h }
}

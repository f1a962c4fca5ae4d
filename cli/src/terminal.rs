//! What the terminal can show, if there is one.

use crate::table::Style;
use std::env;
use std::io::{stdout, IsTerminal};
use std::os::fd::AsRawFd;

/// Linux's request for the size of a terminal, and the size as it is answered.
const WINDOW_SIZE: u64 = 0x5413;

#[repr(C)]
#[derive(Default)]
struct WindowSize {
    rows: u16,
    columns: u16,
    pixels: [u16; 2],
}

extern "C" {
    fn ioctl(file: i32, request: u64, size: *mut WindowSize) -> i32;
}

/// Colours and wide tables only on a terminal, and no colours where the environment says so.
pub fn style() -> Style {
    if !stdout().is_terminal() {
        return Style {
            has_colours: false,
            columns: None,
        };
    }
    let is_set = |name: &str| env::var_os(name).is_some_and(|it| !it.is_empty());
    let is_dumb = env::var_os("TERM").is_some_and(|it| it == "dumb");
    Style {
        has_colours: !is_set("NO_COLOR") && !is_dumb,
        columns: Some(columns()),
    }
}

fn columns() -> usize {
    let mut size = WindowSize::default();
    // SAFETY: the request writes such a size and nothing else.
    let failed = unsafe { ioctl(stdout().as_raw_fd(), WINDOW_SIZE, &mut size) };
    match size.columns {
        0 => 80,
        _ if failed != 0 => 80,
        columns => columns.into(),
    }
}

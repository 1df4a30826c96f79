//! The route view.

use crate::file::{read, route_start};

/// "The route view takes a file and a route number and returns the part of the caller's file
/// that lists the segments, without the count and zeros. It is empty exactly when load refuses
/// the file or the number is not 1 to R".
pub fn route_view(file: &[u8], route: u16) -> &[u8] {
    match read(file) {
        Ok(tables) if 1 <= route && route <= u16::from(tables.r) => {
            let start = route_start(route as u8) + 1;
            &file[start..start + usize::from(tables.route(route as u8).count)]
        }
        _ => &file[..0],
    }
}

/// Where that part starts in the file; 0 for the empty part.
pub fn route_view_start(file: &[u8], route: u16) -> usize {
    if route_view(file, route).is_empty() {
        0
    } else {
        route_start(route as u8) + 1
    }
}

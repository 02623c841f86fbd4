//! The library's calls as crate `exports` declares them, each wrapped in a safe function.
//! A slice passes as a pointer and a length. No call asks anything of its caller, so the wrappers test nothing.

use std::ptr::{null, null_mut};

use reference::points;

#[repr(C)]
#[derive(Clone, Copy)]
pub struct ExitFigures {
    pub total: u64,
    pub green: u64,
    pub permille: u32,
}

#[repr(C)]
#[derive(Clone, Copy)]
pub struct WorkAnswer {
    pub number: u32,
    pub rounds: u32,
    pub sum: f64,
    pub arrival: u32,
    pub blocked: u32,
    pub pairs: [[u32; 4]; 4],
    pub left: ExitFigures,
    pub through: ExitFigures,
    pub right: ExitFigures,
    pub access: u64,
}

/// Running time and headway, milliseconds.
#[repr(C)]
#[derive(Clone, Copy, Default)]
pub struct Point {
    pub running: u32,
    pub headway: u32,
}

#[repr(C)]
#[derive(Clone, Copy, Default)]
pub struct Points {
    pub count: u32,
    pub at: [Point; 8],
}

impl From<&points::Points> for Points {
    fn from(points: &points::Points) -> Points {
        let point = |point: points::Point| Point {
            running: point.running,
            headway: point.headway,
        };
        Points {
            count: points.count,
            at: points.at.map(point),
        }
    }
}

#[repr(C)]
#[derive(Clone, Copy)]
pub struct PointWorkAnswer {
    pub work: WorkAnswer,
    pub blocked: [u32; 8],
}

/// Discharge volumes in thousandths of a vehicle an hour.
#[repr(C)]
#[derive(Clone, Copy)]
pub struct VolumesAnswer {
    pub number: u32,
    pub left: u32,
    pub through: u32,
    pub right: u32,
}

#[repr(C)]
#[derive(Clone, Copy)]
pub struct ValueAnswer {
    pub number: u32,
    pub value: usize,
}

#[repr(C)]
#[derive(Clone, Copy)]
pub struct TitleAnswer {
    pub number: u32,
    pub place: usize,
    pub length: usize,
}

mod library {
    use super::{PointWorkAnswer, Points, TitleAnswer, ValueAnswer, VolumesAnswer, WorkAnswer};

    extern "C" {
        pub fn segment_work(
            bytes: *const u8,
            bytes_length: usize,
            output: *mut u32,
            output_length: usize,
            first: *mut u32,
            first_length: usize,
            second: *mut u32,
            second_length: usize,
        ) -> WorkAnswer;
        pub fn segment_work_points(
            bytes: *const u8,
            bytes_length: usize,
            points: Points,
            output: *mut u32,
            output_length: usize,
            passing: *mut u32,
            passing_length: usize,
            first: *mut u32,
            first_length: usize,
            second: *mut u32,
            second_length: usize,
        ) -> PointWorkAnswer;
        pub fn segment_sheet(
            bytes: *const u8,
            bytes_length: usize,
            page: *mut u8,
            page_length: usize,
            output: *mut u32,
            output_length: usize,
            first: *mut u32,
            first_length: usize,
            second: *mut u32,
            second_length: usize,
        ) -> WorkAnswer;
        pub fn segment_discharge(
            bytes: *const u8,
            bytes_length: usize,
            profile: *mut u32,
            profile_length: usize,
        ) -> VolumesAnswer;
        pub fn archive_count(archive: *const u8, archive_length: usize) -> ValueAnswer;
        pub fn archive_place(archive: *const u8, archive_length: usize, i: usize) -> ValueAnswer;
        pub fn archive_find(archive: *const u8, archive_length: usize, number: u32) -> ValueAnswer;
        pub fn archive_title(archive: *const u8, archive_length: usize, number: u32)
            -> TitleAnswer;
        pub fn archive_add(
            archive: *const u8,
            archive_length: usize,
            bytes: *const u8,
            bytes_length: usize,
            title: *const u8,
            title_length: usize,
            buffer: *mut u8,
            buffer_length: usize,
        ) -> ValueAnswer;
        pub fn archive_report(
            archive: *const u8,
            archive_length: usize,
            text: *mut u8,
            text_length: usize,
        ) -> ValueAnswer;
        pub fn archive_sheets(
            archive: *const u8,
            archive_length: usize,
            text: *mut u8,
            text_length: usize,
        ) -> ValueAnswer;
    }
}

pub fn segment_work(
    bytes: &[u8],
    output: &mut [u32],
    first: &mut [u32],
    second: &mut [u32],
) -> WorkAnswer {
    unsafe {
        library::segment_work(
            bytes.as_ptr(),
            bytes.len(),
            output.as_mut_ptr(),
            output.len(),
            first.as_mut_ptr(),
            first.len(),
            second.as_mut_ptr(),
            second.len(),
        )
    }
}

pub fn segment_work_points(
    bytes: &[u8],
    points: Points,
    output: &mut [u32],
    passing: &mut [u32],
    first: &mut [u32],
    second: &mut [u32],
) -> PointWorkAnswer {
    unsafe {
        library::segment_work_points(
            bytes.as_ptr(),
            bytes.len(),
            points,
            output.as_mut_ptr(),
            output.len(),
            passing.as_mut_ptr(),
            passing.len(),
            first.as_mut_ptr(),
            first.len(),
            second.as_mut_ptr(),
            second.len(),
        )
    }
}

pub fn segment_sheet(
    bytes: &[u8],
    page: &mut [u8],
    output: &mut [u32],
    first: &mut [u32],
    second: &mut [u32],
) -> WorkAnswer {
    unsafe {
        library::segment_sheet(
            bytes.as_ptr(),
            bytes.len(),
            page.as_mut_ptr(),
            page.len(),
            output.as_mut_ptr(),
            output.len(),
            first.as_mut_ptr(),
            first.len(),
            second.as_mut_ptr(),
            second.len(),
        )
    }
}

pub fn segment_discharge(bytes: &[u8], profile: &mut [u32]) -> VolumesAnswer {
    unsafe {
        library::segment_discharge(
            bytes.as_ptr(),
            bytes.len(),
            profile.as_mut_ptr(),
            profile.len(),
        )
    }
}

pub fn archive_count(archive: &[u8]) -> ValueAnswer {
    unsafe { library::archive_count(archive.as_ptr(), archive.len()) }
}

pub fn archive_place(archive: &[u8], i: usize) -> ValueAnswer {
    unsafe { library::archive_place(archive.as_ptr(), archive.len(), i) }
}

pub fn archive_find(archive: &[u8], number: u32) -> ValueAnswer {
    unsafe { library::archive_find(archive.as_ptr(), archive.len(), number) }
}

pub fn archive_title(archive: &[u8], number: u32) -> TitleAnswer {
    unsafe { library::archive_title(archive.as_ptr(), archive.len(), number) }
}

pub fn archive_add(archive: &[u8], bytes: &[u8], title: &[u8], buffer: &mut [u8]) -> ValueAnswer {
    unsafe {
        library::archive_add(
            archive.as_ptr(),
            archive.len(),
            bytes.as_ptr(),
            bytes.len(),
            title.as_ptr(),
            title.len(),
            buffer.as_mut_ptr(),
            buffer.len(),
        )
    }
}

pub fn archive_report(archive: &[u8], text: &mut [u8]) -> ValueAnswer {
    unsafe {
        library::archive_report(
            archive.as_ptr(),
            archive.len(),
            text.as_mut_ptr(),
            text.len(),
        )
    }
}

pub fn archive_sheets(archive: &[u8], text: &mut [u8]) -> ValueAnswer {
    unsafe {
        library::archive_sheets(
            archive.as_ptr(),
            archive.len(),
            text.as_mut_ptr(),
            text.len(),
        )
    }
}

/// The numbers of all calls where every slice is a null pointer of length 0.
pub fn numbers_of_nulls() -> [u32; 11] {
    let (bytes, buffer, profile) = (null(), null_mut(), null_mut());
    let none = Points::default();
    unsafe {
        [
            library::segment_work(bytes, 0, profile, 0, profile, 0, profile, 0).number,
            library::segment_work_points(
                bytes, 0, none, profile, 0, profile, 0, profile, 0, profile, 0,
            )
            .work
            .number,
            library::segment_sheet(bytes, 0, buffer, 0, profile, 0, profile, 0, profile, 0).number,
            library::segment_discharge(bytes, 0, profile, 0).number,
            library::archive_count(bytes, 0).number,
            library::archive_place(bytes, 0, 0).number,
            library::archive_find(bytes, 0, 1).number,
            library::archive_title(bytes, 0, 1).number,
            library::archive_add(bytes, 0, bytes, 0, bytes, 0, buffer, 0).number,
            library::archive_report(bytes, 0, buffer, 0).number,
            library::archive_sheets(bytes, 0, buffer, 0).number,
        ]
    }
}

//! The memory that is lent to the library. Each piece is copied to pages of its own, so
//! that its end, or for a share of the pieces its start, lies at a page that may not be
//! touched: an octet read or written beyond it there ends the program with a fault. On the
//! other side lie octets of a known value; where one of them is changed after the call, the
//! program ends with a message. Otherwise the piece is copied back.

use crate::random::Random;
use std::cell::RefCell;
use std::ffi::{c_int, c_void};
use std::process;
use std::ptr;
use std::slice;

/// The exit status where octets beside a piece are changed.
const TOUCHED: i32 = 5;

const PAGE: usize = 4096;

/// The octets of an area, and of the pages before and behind it that may not be touched: so many
/// that no place of the longest store lies behind them.
const AREA: usize = 36 * PAGE;
const FORBIDDEN: usize = 36 * PAGE;

/// The octets of a known value beside a piece, and how many they are.
const KNOWN: u8 = 0xA5;
const BESIDE: usize = 64;

/// Once in so many times a piece lies at the start of its area.
const AT_START: usize = 4;

/// As mman.h of Linux defines them.
const PROT_NONE: c_int = 0;
const PROT_READ_AND_WRITE: c_int = 3;
const MAP_PRIVATE_ANONYMOUS: c_int = 0x22;

extern "C" {
    fn mmap(
        address: *mut c_void,
        length: usize,
        protection: c_int,
        flags: c_int,
        file: c_int,
        offset: i64,
    ) -> *mut c_void;
    fn mprotect(address: *mut c_void, length: usize, protection: c_int) -> c_int;
}

/// A deliberate fault: the library is told another piece than it is lent, each piece at the
/// same side of its area.
#[derive(Clone, Copy, PartialEq, Eq)]
pub struct LendingFault {
    pub name: &'static str,
    at_start: bool,
    /// It is told of one octet behind the piece; otherwise it is told to begin one before.
    behind: bool,
}

/// The page finds the first two, the known octets find the others.
pub const LENDING_FAULTS: [LendingFault; 4] = [
    LendingFault {
        name: "lent_page_behind",
        at_start: false,
        behind: true,
    },
    LendingFault {
        name: "lent_page_before",
        at_start: true,
        behind: false,
    },
    LendingFault {
        name: "lent_octet_behind",
        at_start: true,
        behind: true,
    },
    LendingFault {
        name: "lent_octet_before",
        at_start: false,
        behind: false,
    },
];

struct Pool {
    /// The areas that hold no piece.
    free: Vec<*mut u8>,
    random: Random,
    fault: Option<LendingFault>,
}

thread_local! {
    static POOL: RefCell<Pool> = const {
        RefCell::new(Pool { free: Vec::new(), random: Random::new(1), fault: None })
    };
}

/// From here on the fault is made.
pub fn make_fault(fault: LendingFault) {
    POOL.with_borrow_mut(|pool| pool.fault = Some(fault));
}

/// A new area between pages that may not be touched.
fn new_area() -> *mut u8 {
    let all = AREA + 2 * FORBIDDEN;
    let first = unsafe {
        mmap(
            ptr::null_mut(),
            all,
            PROT_NONE,
            MAP_PRIVATE_ANONYMOUS,
            -1,
            0,
        )
    };
    assert!(first as isize != -1, "no memory is mapped");
    unsafe {
        let area = first.add(FORBIDDEN);
        let status = mprotect(area, AREA, PROT_READ_AND_WRITE);
        assert!(status == 0, "no memory is allowed");
        area.cast()
    }
}

/// A piece that is lent, until this is dropped.
pub struct Lent<'a> {
    area: *mut u8,
    /// Where the piece begins in the area.
    place: usize,
    piece: &'a mut [u8],
    fault: Option<LendingFault>,
}

/// Lends octets.
pub fn lend(octets: &mut [u8]) -> Lent<'_> {
    let fault = POOL.with_borrow(|pool| pool.fault);
    Lent::new(octets, fault)
}

/// The numbers that the library tells through pointers.
pub trait Number {}
impl Number for u8 {}
impl Number for u16 {}
impl Number for u64 {}

/// Lends a number. Both sides of an area are aligned for it.
pub fn lend_number<T: Number>(number: &mut T) -> Lent<'_> {
    let octets = ptr::from_mut(number).cast::<u8>();
    // Any octets are a number.
    let octets = unsafe { slice::from_raw_parts_mut(octets, size_of::<T>()) };
    Lent::new(octets, None)
}

impl<'a> Lent<'a> {
    fn new(piece: &'a mut [u8], fault: Option<LendingFault>) -> Lent<'a> {
        assert!(piece.len() + BESIDE <= AREA);
        let (area, at_start) = POOL.with_borrow_mut(|pool| {
            let area = pool.free.pop().unwrap_or_else(new_area);
            let at_start = pool.random.once_in(AT_START);
            (area, fault.map_or(at_start, |fault| fault.at_start))
        });
        let place = if at_start { 0 } else { AREA - piece.len() };
        let lent = Lent {
            area,
            place,
            piece,
            fault,
        };
        unsafe {
            ptr::copy_nonoverlapping(lent.piece.as_ptr(), lent.start(), lent.piece.len());
            ptr::write_bytes(lent.beside(), KNOWN, BESIDE);
        }
        lent
    }

    fn start(&self) -> *mut u8 {
        unsafe { self.area.add(self.place) }
    }

    /// The first octet, as the library is told it.
    pub fn first(&self) -> *mut u8 {
        match self.fault {
            Some(LendingFault { behind: false, .. }) => self.start().wrapping_sub(1),
            _ => self.start(),
        }
    }

    /// The count of octets, as the library is told it.
    pub fn len(&self) -> u64 {
        match self.fault {
            Some(LendingFault { behind: true, .. }) => self.piece.len() as u64 + 1,
            _ => self.piece.len() as u64,
        }
    }

    /// The number, where one is lent.
    pub fn number<T: Number>(&self) -> *mut T {
        self.start().cast()
    }

    /// The first of the octets of a known value, before the piece or behind it.
    fn beside(&self) -> *mut u8 {
        let first = match self.place {
            0 => self.piece.len(),
            place => place - BESIDE,
        };
        unsafe { self.area.add(first) }
    }
}

impl Drop for Lent<'_> {
    fn drop(&mut self) {
        let length = self.piece.len();
        let beside = unsafe { slice::from_raw_parts(self.beside(), BESIDE) };
        if beside != [KNOWN; BESIDE] {
            let side = if self.place == 0 { "behind" } else { "before" };
            println!("the library changed octets {side} a piece of {length} octets lent to it");
            process::exit(TOUCHED);
        }
        unsafe { ptr::copy_nonoverlapping(self.start(), self.piece.as_mut_ptr(), length) };
        POOL.with_borrow_mut(|pool| pool.free.push(self.area));
    }
}

//! The port's calls, as include/viscrombal.h and driver/judged.h declare them.
use std::mem::MaybeUninit;

#[repr(C)]
#[derive(Clone, Copy, Debug)]
pub struct ModuleTold {
    pub number: u32,
    pub place: usize,
    pub offset: usize,
    pub version: u32,
    pub length: usize,
    pub named: bool,
    pub start: usize,
    pub size: usize,
    pub sections: usize,
    pub imports: usize,
    pub exports: usize,
    pub symbols: usize,
}

/// And with the bytes of its rows.
#[repr(C)]
#[derive(Clone, Copy, Debug)]
pub struct ListedTold {
    pub module: ModuleTold,
    pub bytes: usize,
}

#[repr(C)]
#[derive(Clone, Copy, Debug)]
pub struct ManifestTold {
    pub number: u32,
    pub place: usize,
    pub packaged: bool,
    pub start: usize,
    pub size: usize,
    pub worlds: usize,
    pub references: usize,
}

#[repr(C)]
#[derive(Clone, Copy, Debug)]
pub struct RangeTold {
    pub number: u32,
    pub place: usize,
    pub from: usize,
    pub len: usize,
    pub next: usize,
}

#[repr(C)]
#[derive(Clone, Copy, Debug)]
pub struct RuleTold {
    pub stance: usize,
    pub from: usize,
    pub len: usize,
}

#[repr(C)]
#[derive(Clone, Copy, Debug)]
pub struct PolicyTold {
    pub number: u32,
    pub place: usize,
    pub named: bool,
    pub start: usize,
    pub size: usize,
    pub permit: bool,
    pub rules: [RuleTold; 7],
}

#[repr(C)]
#[derive(Clone, Copy, Debug)]
pub struct TokenTold {
    pub number: u32,
    pub place: usize,
    pub found: bool,
    pub from: usize,
    pub len: usize,
    pub next: usize,
}

#[repr(C)]
#[derive(Clone, Copy, Debug)]
pub struct TokensTold {
    pub number: u32,
    pub place: usize,
    pub count: usize,
    pub bytes: usize,
}

#[repr(C)]
#[derive(Clone, Copy, Debug)]
pub struct VerdictTold {
    pub required: bool,
    pub allowed: bool,
    pub many: usize,
}

#[repr(C)]
#[derive(Clone, Copy, Debug)]
pub struct EvaluationTold {
    pub number: u32,
    pub place: usize,
    pub offset: usize,
    pub verdicts: [VerdictTold; 7],
    pub set: u32,
    pub count: usize,
    pub compliant: bool,
}

#[repr(C)]
#[derive(Clone, Copy, Debug)]
pub struct ComparedTold {
    pub number: u32,
    pub place: usize,
    pub exports: usize,
    pub capabilities: usize,
    pub compatible: bool,
}

#[repr(C)]
#[derive(Clone, Copy, Debug)]
pub struct ComparisonTold {
    pub number: u32,
    pub place: usize,
    pub offset: usize,
    pub exports: usize,
    pub capabilities: usize,
    pub compatible: bool,
    pub reasons: usize,
    pub bytes: usize,
}

#[rustfmt::skip]
extern "C" {
    fn judged_module(out: *mut ModuleTold, file: *const u8, length: usize, sections: *mut usize, n1: usize, imports: *mut usize, n2: usize,
        exports: *mut usize, n3: usize, names: *mut usize, n4: usize);
    fn judged_strict(out: *mut ModuleTold, file: *const u8, length: usize, sections: *mut usize, n1: usize, imports: *mut usize, n2: usize,
        exports: *mut usize, n3: usize, names: *mut usize, n4: usize);
    fn judged_manifest(out: *mut ManifestTold, text: *const u8, length: usize, worlds: *mut usize, n5: usize, references: *mut usize, n6: usize);
    fn judged_token(out: *mut TokenTold, text: *const u8, length: usize, policy: *const usize, cells: usize, domain: usize, from: usize);
    fn judged_compare(out: *mut ComparedTold, baseline: *const u8, length: usize, bi: *const usize, n1: usize, be: *const usize, n2: usize,
        candidate: *const u8, candidate_length: usize, ci: *const usize, n3: usize, ce: *const usize, n4: usize,
        xd: *mut usize, n5: usize, cd: *mut usize, n6: usize, nbi: usize, nbe: usize, nci: usize, nce: usize);
    fn viscrombal_module(out: *mut ListedTold, file: *const u8, length: usize, rows: *mut u8, room: usize);
    fn viscrombal_name(out: *mut RangeTold, s: *const u8, length: usize, at: usize);
    fn viscrombal_policy(out: *mut PolicyTold, text: *const u8, length: usize);
    fn viscrombal_tokens(out: *mut TokensTold, text: *const u8, length: usize, domain: usize, cells: *mut u8, room: usize);
    fn viscrombal_compare(out: *mut ComparisonTold, baseline: *const u8, length: usize, candidate: *const u8, candidate_length: usize, rows: *mut u8, room: usize);
    fn viscrombal_check(out: *mut EvaluationTold, file: *const u8, length: usize, text: *const u8, text_length: usize);
}

/// On x86-64 a struct of more than two words goes where a first argument says; the archives for other processors keep that.
fn answered<T>(call: impl FnOnce(*mut T)) -> T {
    let mut out = MaybeUninit::uninit();
    call(out.as_mut_ptr());
    // SAFETY: every call writes its whole answer
    unsafe { out.assume_init() }
}

/// Tables 1 to 4, and the cells to a row.
pub struct Tables(pub [Vec<usize>; 4]);
pub const WIDTHS: [usize; 4] = [5, 12, 4, 3];

impl Tables {
    pub fn of(rows: [usize; 4]) -> Tables {
        Tables(std::array::from_fn(|i| vec![usize::MAX; rows[i] * WIDTHS[i]]))
    }

    pub fn at_limits() -> Tables {
        Tables::of([256, 1024, 1024, 4096])
    }
}

#[rustfmt::skip]
type ReadCall = unsafe extern "C" fn(*mut ModuleTold, *const u8, usize, *mut usize, usize, *mut usize, usize, *mut usize, usize, *mut usize, usize);

#[rustfmt::skip]
fn read_by(call: ReadCall, file: &[u8], t: &mut Tables) -> ModuleTold {
    let [a, b, c, d] = &mut t.0;
    // SAFETY: each pointer has as many elements as the length after it says, and the slices are apart
    answered(|out| unsafe {
        call(
            out, file.as_ptr(), file.len(), a.as_mut_ptr(), a.len(), b.as_mut_ptr(), b.len(), c.as_mut_ptr(), c.len(), d.as_mut_ptr(), d.len(),
        )
    })
}

pub fn module(file: &[u8], t: &mut Tables) -> ModuleTold {
    read_by(judged_module, file, t)
}

pub fn strict(file: &[u8], t: &mut Tables) -> ModuleTold {
    read_by(judged_strict, file, t)
}

/// The module's rows, eight bytes a cell, in one buffer.
pub fn listed(file: &[u8], rows: &mut [u8]) -> ListedTold {
    // SAFETY: as above
    answered(|out| unsafe { viscrombal_module(out, file.as_ptr(), file.len(), rows.as_mut_ptr(), rows.len()) })
}

pub fn manifest(text: &[u8], worlds: &mut [usize], references: &mut [usize]) -> ManifestTold {
    // SAFETY: as above
    answered(|out| unsafe {
        judged_manifest(out, text.as_ptr(), text.len(), worlds.as_mut_ptr(), worlds.len(), references.as_mut_ptr(), references.len())
    })
}

pub fn name(s: &[u8]) -> RangeTold {
    // SAFETY: as above
    answered(|out| unsafe { viscrombal_name(out, s.as_ptr(), s.len(), 0) })
}

pub fn policy(text: &[u8]) -> PolicyTold {
    // SAFETY: as above
    answered(|out| unsafe { viscrombal_policy(out, text.as_ptr(), text.len()) })
}

/// The 25 cells by which a policy is handed in.
pub fn cells(p: &PolicyTold) -> Vec<usize> {
    let mut cells = vec![p.named as usize, p.start, p.size, p.permit as usize];
    cells.extend(p.rules.iter().flat_map(|r| [r.stance, r.from, r.len]));
    cells
}

pub fn token(text: &[u8], cells: &[usize], domain: usize, from: usize) -> TokenTold {
    // SAFETY: as above
    answered(|out| unsafe { judged_token(out, text.as_ptr(), text.len(), cells.as_ptr(), cells.len(), domain, from) })
}

pub fn tokens(text: &[u8], domain: usize, cells: &mut [u8]) -> TokensTold {
    // SAFETY: as above
    answered(|out| unsafe { viscrombal_tokens(out, text.as_ptr(), text.len(), domain, cells.as_mut_ptr(), cells.len()) })
}

pub fn check(file: &[u8], text: &[u8]) -> EvaluationTold {
    // SAFETY: as above
    answered(|out| unsafe { viscrombal_check(out, file.as_ptr(), file.len(), text.as_ptr(), text.len()) })
}

/// What the comparison takes of a module: the file, and tables 2 and 3 with their counts.
pub struct Given<'a> {
    pub file: &'a [u8],
    pub imports: &'a [usize],
    pub n: usize,
    pub exports: &'a [usize],
    pub m: usize,
}

#[rustfmt::skip]
pub fn compare(b: &Given, c: &Given, xd: &mut [usize], cd: &mut [usize]) -> ComparedTold {
    // SAFETY: as above
    answered(|out| unsafe {
        judged_compare(
            out, b.file.as_ptr(), b.file.len(), b.imports.as_ptr(), b.imports.len(), b.exports.as_ptr(), b.exports.len(),
            c.file.as_ptr(), c.file.len(), c.imports.as_ptr(), c.imports.len(), c.exports.as_ptr(), c.exports.len(),
            xd.as_mut_ptr(), xd.len(), cd.as_mut_ptr(), cd.len(), b.n, b.m, c.n, c.m,
        )
    })
}

/// The differences' rows, eight bytes a cell, then the reasons, in one buffer.
#[rustfmt::skip]
pub fn compare_files(baseline: &[u8], candidate: &[u8], out: &mut [u8]) -> ComparisonTold {
    // SAFETY: as above
    answered(|told| unsafe {
        viscrombal_compare(told, baseline.as_ptr(), baseline.len(), candidate.as_ptr(), candidate.len(), out.as_mut_ptr(), out.len())
    })
}

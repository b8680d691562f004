//! The structs and calls of scf.h.

#[repr(C)]
#[derive(Clone, Copy)]
pub struct Bytes {
    pub at: *const u8,
    pub len: usize,
}

impl Bytes {
    pub fn of(bytes: &[u8]) -> Bytes {
        Bytes { at: bytes.as_ptr(), len: bytes.len() }
    }
}

#[repr(C)]
#[derive(Default)]
pub struct Fault {
    pub source: u32,
    pub kind: u32,
    pub numbers: [u64; 3],
    pub reserved: [u64; 4],
}

#[repr(C)]
#[derive(Default)]
pub struct Decision {
    pub answer: u32,
    pub has_filter: u32,
    pub filter: u64,
    pub index: u64,
    pub reserved: [u64; 4],
}

#[repr(C)]
pub struct Table {
    pub bytes: Bytes,
    pub architecture: u32,
    pub has_stub: u32,
    pub stub: u32,
    pub reserved: u32,
}

#[repr(C)]
pub struct Profile {
    pub text: Bytes,
    pub reading: u32,
    pub flags: u32,
    pub reserved: [u64; 2],
}

#[repr(C)]
#[derive(Clone, Copy, Default)]
pub struct LeftOut {
    pub not_looked_at: u64,
    pub skipped: u64,
    pub reserved: [u64; 4],
}

#[repr(C)]
#[derive(Default)]
pub struct Answer {
    pub answer: u32,
    pub reason: u32,
    pub entry: u32,
    pub unused: u32,
    pub left_out: LeftOut,
}

#[repr(C)]
pub struct Side {
    pub kind: u32,
    pub reserved: u32,
    pub filters: *const Bytes,
    pub filters_len: usize,
    pub profile: Profile,
}

#[repr(C)]
pub struct Question {
    pub scope: u32,
    pub relation: u32,
    pub architecture: u32,
    pub first: u32,
    pub last: u32,
    pub unused: u32,
    pub limit: u64,
    pub total_limit: u64,
    pub reserved: [u64; 2],
}

#[repr(C)]
#[derive(Clone, Copy, Default)]
pub struct Finding {
    pub verdict: u32,
    pub left: u32,
    pub right: u32,
    pub side: u32,
    pub at: u64,
    pub call: crate::Call,
}

#[repr(C)]
#[derive(Default)]
pub struct Comparison {
    pub finding: Finding,
    pub left: LeftOut,
    pub right: LeftOut,
}

#[repr(C)]
#[derive(Clone, Copy, Default)]
pub struct RecordsFinding {
    pub architecture: u32,
    pub nr: u32,
    pub finding: Finding,
    pub reserved: [u64; 4],
}

#[repr(C)]
#[derive(Default)]
pub struct Listing {
    pub is_finished: u32,
    pub unused: u32,
    pub left_out: LeftOut,
}

#[repr(C)]
#[derive(Clone, Copy, Default)]
pub struct Region {
    pub answer: u32,
    pub is_known: u32,
    pub is_exact: u32,
    pub has_example: u32,
    pub reason: u32,
    pub entry: u32,
    pub filter: u64,
    pub index: u64,
    pub fact_count: u64,
    pub example: crate::Call,
    pub reserved: [u64; 4],
}

#[repr(C)]
#[derive(Clone, Copy, Default)]
pub struct Fact {
    pub word: u32,
    pub kind: u32,
    pub low: u32,
    pub high: u32,
}

pub fn tables_of(tables: &[crate::Table]) -> Vec<Table> {
    let table = |table: &crate::Table| Table {
        bytes: Bytes::of(table.text),
        architecture: table.architecture as u32,
        has_stub: table.stub.is_some() as u32,
        stub: table.stub.unwrap_or(0),
        reserved: 0,
    };
    tables.iter().map(table).collect()
}

#[rustfmt::skip]
extern "C" {
    pub fn scf_version() -> u32;
    pub fn scf_table(architecture: u32, size: &mut usize) -> *const u8;
    pub fn scf_fault_text(fault: &Fault, text: *mut u8, room: usize, needed: &mut usize);
    pub fn scf_call_text(call: &crate::Call, text: *mut u8, room: usize, needed: &mut usize);
    pub fn scf_load(filter: *const u8, len: usize, flags: u32) -> i32;
    pub fn scf_check(filter: *const u8, len: usize, count: &mut usize, fault: &mut Fault) -> u32;
    pub fn scf_run(filter: *const u8, len: usize, call: &crate::Call, answer: &mut u32, steps: &mut u32,
                   fault: &mut Fault) -> u32;
    pub fn scf_trace(filter: *const u8, len: usize, call: &crate::Call, answer: &mut u32, path: *mut usize, room: usize,
                     needed: &mut usize, fault: &mut Fault) -> u32;
    pub fn scf_list(filter: *const u8, len: usize, text: *mut u8, room: usize, needed: &mut usize,
                    fault: &mut Fault) -> u32;
    pub fn scf_assemble(text: *const u8, len: usize, filter: *mut u8, room: usize, needed: &mut usize,
                        fault: &mut Fault) -> u32;
    pub fn scf_decide(filters: *const Bytes, len: usize, call: &crate::Call, decision: &mut Decision,
                      fault: &mut Fault) -> u32;
    pub fn scf_compile(profile: &Profile, tables: *const Table, tables_len: usize, filter: *mut u8, room: usize,
                       needed: &mut usize, left_out: &mut LeftOut, fault: &mut Fault) -> u32;
    pub fn scf_ask(profile: &Profile, tables: *const Table, tables_len: usize, call: &crate::Call, answer: &mut Answer,
                   fault: &mut Fault) -> u32;
    pub fn scf_compare(left: &Side, right: &Side, tables: *const Table, tables_len: usize, question: &Question,
                       comparison: &mut Comparison, each: *mut RecordsFinding, each_room: usize,
                       each_needed: &mut usize, text: *mut u8, room: usize, needed: &mut usize,
                       fault: &mut Fault) -> u32;
    pub fn scf_answers(side: &Side, tables: *const Table, tables_len: usize, question: &Question,
                       listing: &mut Listing, regions: *mut Region, regions_room: usize, regions_needed: &mut usize,
                       facts: *mut Fact, facts_room: usize, facts_needed: &mut usize, fault: &mut Fault) -> u32;
}

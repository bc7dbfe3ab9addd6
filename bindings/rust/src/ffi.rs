//! What `include/velkunshe.h` declares. Each pointer comes from a Rust slice, so it is neither null nor misaligned, and a `&mut` slice
//! overlaps no other: all that the header asks of a caller.

#[repr(C)]
pub struct CheckAnswer {
    pub refusal: u32,
    pub place: u32,
    pub findings: u64,
    pub needed: u64,
}

#[repr(C)]
pub struct CodeAnswer {
    pub refusal: u32,
    pub place: u32,
    pub length: u64,
    pub needed: u64,
}

#[repr(C)]
pub struct RouteAnswer {
    pub refusal: u32,
    pub place: u32,
    pub entries: u64,
    pub needed: u64,
    pub taken: u64,
    pub end: u32,
}

#[repr(C)]
pub struct SharedAnswer {
    pub refusal: u32,
    pub place: u32,
    pub shared: u64,
    pub needed: u64,
}

#[repr(C)]
pub struct RenameAnswer {
    pub refusal: u32,
    pub place: u32,
    pub names: u64,
    pub needed: u64,
}

#[repr(C)]
pub struct ShortenAnswer {
    pub refusal: u32,
    pub place: u64,
    pub length: u64,
    pub freed: u64,
}

#[repr(C)]
pub struct RunAnswer {
    pub refusal: u32,
    pub end: u32,
    pub place: u64,
    pub entries: u64,
    pub needed: u64,
    pub taken: u64,
}

extern "C" {
    pub fn velkunshe_check(
        source_type: u32,
        async_bodies: u32,
        nodes: *const u32,
        nodes_length: usize,
        scopes: *const u32,
        scopes_length: usize,
        source: *const u8,
        source_length: usize,
        names: *const u8,
        names_length: usize,
        findings: *mut u32,
        findings_length: usize,
    ) -> CheckAnswer;

    pub fn velkunshe_code(
        source_type: u32,
        async_bodies: u32,
        nodes: *const u32,
        nodes_length: usize,
        scopes: *const u32,
        scopes_length: usize,
        source: *const u8,
        source_length: usize,
        names: *const u8,
        names_length: usize,
        unit: u32,
        code: *mut u32,
        code_length: usize,
    ) -> CodeAnswer;

    pub fn velkunshe_route(
        source_type: u32,
        async_bodies: u32,
        nodes: *const u32,
        nodes_length: usize,
        scopes: *const u32,
        scopes_length: usize,
        source: *const u8,
        source_length: usize,
        names: *const u8,
        names_length: usize,
        unit: u32,
        answers: *const u32,
        answers_length: usize,
        code: *mut u32,
        code_length: usize,
        route: *mut u32,
        route_length: usize,
    ) -> RouteAnswer;

    pub fn velkunshe_shared(
        source_type: u32,
        async_bodies: u32,
        nodes: *const u32,
        nodes_length: usize,
        scopes: *const u32,
        scopes_length: usize,
        source: *const u8,
        source_length: usize,
        names: *const u8,
        names_length: usize,
        unit: u32,
        first: *const u32,
        first_length: usize,
        second: *const u32,
        second_length: usize,
        code: *mut u32,
        code_length: usize,
    ) -> SharedAnswer;

    pub fn velkunshe_walk(
        source_type: u32,
        async_bodies: u32,
        nodes: *const u32,
        nodes_length: usize,
        scopes: *const u32,
        scopes_length: usize,
        source: *const u8,
        source_length: usize,
        names: *const u8,
        names_length: usize,
        unit: u32,
        answers: *const u32,
        answers_length: usize,
        route: *mut u32,
        route_length: usize,
    ) -> RouteAnswer;

    pub fn velkunshe_rename(
        source_type: u32,
        nodes: *const u32,
        nodes_length: usize,
        scopes: *const u32,
        scopes_length: usize,
        source: *const u8,
        source_length: usize,
        names: *const u8,
        names_length: usize,
        renamed_nodes: *mut u32,
        renamed_nodes_length: usize,
        renamed_names: *mut u8,
        renamed_names_length: usize,
    ) -> RenameAnswer;

    pub fn velkunshe_shorten(code: *mut u32, code_length: usize) -> ShortenAnswer;

    pub fn velkunshe_run(
        code: *const u32,
        code_length: usize,
        answers: *const u32,
        answers_length: usize,
        route: *mut u32,
        route_length: usize,
    ) -> RunAnswer;

    pub fn velkunshe_route_stop(
        source_type: u32,
        async_bodies: u32,
        nodes: *const u32,
        nodes_length: usize,
        scopes: *const u32,
        scopes_length: usize,
        source: *const u8,
        source_length: usize,
        names: *const u8,
        names_length: usize,
        unit: u32,
        answers: *const u32,
        answers_length: usize,
        mark: u32,
        stop: u64,
        marks: *mut u32,
        code: *mut u32,
        code_length: usize,
        route: *mut u32,
        route_length: usize,
    ) -> RouteAnswer;

    pub fn velkunshe_route_resume(
        source_type: u32,
        async_bodies: u32,
        nodes: *const u32,
        nodes_length: usize,
        scopes: *const u32,
        scopes_length: usize,
        source: *const u8,
        source_length: usize,
        names: *const u8,
        names_length: usize,
        unit: u32,
        mark: u32,
        answers: *const u32,
        answers_length: usize,
        marks: *mut u32,
        code: *mut u32,
        code_length: usize,
        route: *mut u32,
        route_length: usize,
    ) -> RouteAnswer;

    pub fn velkunshe_route_resume_stop(
        source_type: u32,
        async_bodies: u32,
        nodes: *const u32,
        nodes_length: usize,
        scopes: *const u32,
        scopes_length: usize,
        source: *const u8,
        source_length: usize,
        names: *const u8,
        names_length: usize,
        unit: u32,
        from: u32,
        answers: *const u32,
        answers_length: usize,
        to: u32,
        stop: u64,
        marks: *mut u32,
        code: *mut u32,
        code_length: usize,
        route: *mut u32,
        route_length: usize,
    ) -> RouteAnswer;
}

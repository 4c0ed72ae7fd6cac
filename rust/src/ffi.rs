//! The exported functions of the static library, as `include/rusketja.h` declares them. A list is a pointer and a length.

extern "C" {
    pub fn rusketja_check(
        v: usize,
        f: usize,
        positions: *const i32,
        positions_len: usize,
        tags: *const u8,
        tags_len: usize,
        indices: *const u16,
        indices_len: usize,
        twins: *mut u16,
        twins_len: usize,
        vertices: &mut usize,
        faces: &mut usize,
        edges: &mut usize,
        boundary: &mut usize,
    ) -> u8;

    pub fn rusketja_patches(
        v: usize,
        f: usize,
        positions: *const i32,
        positions_len: usize,
        tags: *const u8,
        tags_len: usize,
        indices: *const u16,
        indices_len: usize,
        twins: *mut u16,
        twins_len: usize,
        patches: *mut i32,
        patches_len: usize,
        exact: *mut u8,
        exact_len: usize,
        vertices: &mut usize,
        faces: &mut usize,
        edges: &mut usize,
        boundary: &mut usize,
    ) -> u8;

    pub fn rusketja_sample(
        patches: *const i32,
        patches_len: usize,
        f: usize,
        n: usize,
        a: usize,
        b: usize,
        x: &mut i32,
        y: &mut i32,
        z: &mut i32,
    ) -> u8;

    pub fn rusketja_marked_sample(
        patches: *const i32,
        patches_len: usize,
        exact: *const u8,
        exact_len: usize,
        f: usize,
        n: usize,
        a: usize,
        b: usize,
        x: &mut i32,
        y: &mut i32,
        z: &mut i32,
        mark: &mut u8,
    ) -> u8;

    pub fn rusketja_reading(
        patches: *const i32,
        patches_len: usize,
        f: usize,
        n: usize,
        a: usize,
        b: usize,
        x: &mut f64,
        y: &mut f64,
        z: &mut f64,
    ) -> u8;

    pub fn rusketja_sample_line(
        patches: *const i32,
        patches_len: usize,
        f: usize,
        n: usize,
        b: usize,
        line: *mut i32,
        line_len: usize,
    ) -> u8;

    pub fn rusketja_mirror(
        v: usize,
        f: usize,
        positions: *const i32,
        positions_len: usize,
        tags: *const u8,
        tags_len: usize,
        indices: *const u16,
        indices_len: usize,
        out_positions: *mut i32,
        out_positions_len: usize,
        out_tags: *mut u8,
        out_tags_len: usize,
        out_indices: *mut u16,
        out_indices_len: usize,
    ) -> u8;

    pub fn rusketja_tangents(
        v: usize,
        f: usize,
        positions: *const i32,
        positions_len: usize,
        tags: *const u8,
        tags_len: usize,
        indices: *const u16,
        indices_len: usize,
        g: usize,
        tangents: *mut i64,
        tangents_len: usize,
    ) -> u8;

    pub fn rusketja_face_corners(indices: *const u16, indices_len: usize, f: usize, first: &mut usize) -> usize;

    pub fn rusketja_cosine(m: usize) -> i32;

    pub fn rusketja_edge_weight(n: usize, i: usize) -> i32;

    pub fn rusketja_face_weight(n: usize, i: usize) -> i32;
}

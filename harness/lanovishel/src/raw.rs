//! The exported functions as they are: a slice is a pointer and a length, an array is a pointer.
//!
//! Each is safe to call where every pointer is valid for its length, also where that is 0, and
//! no list that is written overlaps another list.

unsafe extern "C" {
    /// The square root; see [`crate::sqrt`].
    pub safe fn lanovishel_sqrt(x: f64) -> f64;

    /// The verdict on a surface; see [`crate::check`].
    pub fn lanovishel_check(
        points: *const f64,
        point_values: usize,
        corners: *const u32,
        corner_numbers: usize,
        labels: *const u8,
        label_count: usize,
        work: *mut u32,
        work_words: usize,
        numbers: *mut [f64; 2],
        place: *mut [u32; 2],
    ) -> u32;

    /// A run of entries; see [`crate::edit`].
    pub fn lanovishel_edit(
        points: *const f64,
        point_values: usize,
        corners: *mut u32,
        corner_numbers: usize,
        labels: *mut u8,
        label_count: usize,
        work: *mut u32,
        work_words: usize,
        entries: *const u32,
        entry_words: usize,
        verdicts: *mut u32,
        verdict_words: usize,
        journal: *mut u32,
        journal_words: usize,
        answer: *mut [u64; 2],
        place: *mut [u32; 2],
    ) -> u32;

    /// Rounds of improving; see [`crate::improve`].
    pub fn lanovishel_improve(
        points: *mut f64,
        point_values: usize,
        corners: *mut u32,
        corner_numbers: usize,
        labels: *mut u8,
        label_count: usize,
        work: *mut u32,
        work_words: usize,
        coefficients: *const f64,
        coefficient_count: usize,
        powers: *const u32,
        power_count: usize,
        levels: *const [f64; 2],
        bounds: *const [f64; 6],
        rounds: u32,
        answer: *mut [u32; 3],
        place: *mut [u32; 2],
    ) -> u32;

    /// The price of a surface; see [`crate::price`].
    pub fn lanovishel_price(
        points: *const f64,
        point_values: usize,
        corners: *const u32,
        corner_numbers: usize,
        labels: *const u8,
        label_count: usize,
        work: *mut u32,
        work_words: usize,
        uppers: *const u64,
        upper_count: usize,
        prices: *const u64,
        price_count: usize,
        cents: *mut [u64; 1],
        place: *mut [u32; 2],
    ) -> u32;

    /// The nearest corners; see [`crate::nearest`].
    pub fn lanovishel_nearest(
        points: *const f64,
        point_values: usize,
        corners: *const u32,
        corner_numbers: usize,
        labels: *const u8,
        label_count: usize,
        work: *mut u32,
        work_words: usize,
        probes: *const f64,
        probe_values: usize,
        answers: *mut u64,
        answer_words: usize,
        count: *mut [u32; 1],
    ) -> u32;

    /// The outlines of a layer; see [`crate::outlines`].
    pub fn lanovishel_outlines(
        points: *const f64,
        point_values: usize,
        corners: *const u32,
        corner_numbers: usize,
        labels: *const u8,
        label_count: usize,
        work: *mut u32,
        work_words: usize,
        height: i32,
        outline: *mut u32,
        outline_words: usize,
        counts: *mut [u32; 2],
        place: *mut [u32; 2],
    ) -> u32;

    /// What a sheet says; see [`crate::read_sheet`].
    pub fn lanovishel_read_sheet(
        sheet: *const u8,
        sheet_bytes: usize,
        points: *mut f64,
        point_values: usize,
        corners: *mut u32,
        corner_numbers: usize,
        labels: *mut u8,
        label_count: usize,
        counts: *mut [u32; 2],
    ) -> u32;

    /// The text of a sheet; see [`crate::write_sheet`].
    pub fn lanovishel_write_sheet(
        edition: u32,
        coordinates: *const i32,
        coordinate_count: usize,
        corners: *const u32,
        corner_numbers: usize,
        labels: *const u8,
        label_count: usize,
        written: *mut u8,
        written_bytes: usize,
        count: *mut [u64; 1],
    ) -> u32;

    /// A sheet in another edition; see [`crate::convert_sheet`].
    pub fn lanovishel_convert_sheet(
        sheet: *const u8,
        sheet_bytes: usize,
        edition: u32,
        written: *mut u8,
        written_bytes: usize,
        count: *mut [u64; 1],
    ) -> u32;

    /// A field on a lattice; see [`crate::sample`].
    pub fn lanovishel_sample(
        coefficients: *const f64,
        coefficient_count: usize,
        powers: *const u32,
        power_count: usize,
        levels: *const [f64; 2],
        bounds: *const [f64; 6],
        cells: u32,
        grid: *mut f64,
        grid_values: usize,
        values: *mut f64,
        value_count: usize,
        edges: *mut u32,
        edge_words: usize,
        counts: *mut [u32; 3],
    ) -> u32;

    /// A field on a lattice and where the levels cut its edges; see [`crate::cut`].
    pub fn lanovishel_cut(
        coefficients: *const f64,
        coefficient_count: usize,
        powers: *const u32,
        power_count: usize,
        levels: *const [f64; 2],
        bounds: *const [f64; 6],
        cells: u32,
        grid: *mut f64,
        grid_values: usize,
        values: *mut f64,
        value_count: usize,
        edges: *mut u32,
        edge_words: usize,
        counts: *mut [u32; 4],
        cuts: *mut f64,
        cut_values: usize,
        fields: *mut [u64; 1],
    ) -> u32;
}

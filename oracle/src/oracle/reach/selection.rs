// Stands at the end of algorithm/selection.rs (see build.rs): its private step, which the cache stands before.

pub fn reach_compatible_values(
    pattern: &[[i32; 3]; 3],
    step_data: &StepData,
    target_row: usize,
    target_col: usize,
) -> TileBitset {
    find_compatible_values_at_offset_bitset(
        pattern,
        &step_data.source_tiles,
        &step_data.tile_compatibility_rules,
        step_data.unique_cell_count,
        target_row,
        target_col,
    )
}

// Stands at the end of algorithm/deadlock.rs (see build.rs): the private steps of a resolution, one by one.

pub fn reach_revert_adjacency_weights(grid_state: &mut GridState, system_offset: [i32; 2], coords: [i32; 2]) {
    revert_adjacency_weights(grid_state, system_offset, coords);
}

pub fn reach_revert_probabilities(
    grid_state: &mut GridState,
    probability_influence_matrices: &Array4<f64>,
    tile_reference: usize,
    system_offset: [i32; 2],
    coords: [i32; 2],
    step_data: &StepData,
) {
    revert_probabilities(grid_state, probability_influence_matrices, tile_reference, system_offset, coords, step_data);
}

pub fn reach_recount_feasibility(
    grid_state: &GridState,
    feasibility_layer: &mut FeasibilityCountLayer,
    step_data: &StepData,
    row_span: &Range<usize>,
    col_span: &Range<usize>,
) {
    recount_feasibility(grid_state, feasibility_layer, step_data, row_span, col_span);
}

pub fn reach_aggregate_feasibility(
    grid_state: &mut GridState,
    feasibility_layer: &FeasibilityCountLayer,
    row_span: Range<usize>,
    col_span: Range<usize>,
) {
    aggregate_feasibility(grid_state, feasibility_layer, row_span, col_span);
}

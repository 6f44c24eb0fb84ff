// Stands at the end of algorithm/feasibility.rs (see build.rs): the layer's private planes, in and out.

impl FeasibilityCountLayer {
    pub fn reach_from(rows: usize, cols: usize, counts: &[u32], tile_count: usize) -> Self {
        let counts = counts.iter().map(|&count| count as usize).collect();
        Self { counts: Array2::from_shape_vec((rows, cols), counts).unwrap(), tile_count }
    }

    pub fn reach_counts(&self) -> Vec<u32> {
        self.counts.iter().map(|&count| u32::try_from(count).unwrap()).collect()
    }
}

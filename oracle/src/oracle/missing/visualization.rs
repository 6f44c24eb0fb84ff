//! Stand-in for io/visualization.rs, which the text names and does not show. There is no value of this type, so the
//! text's recording never runs and nothing can rest on it.

pub enum VisualizationCapture {}

impl VisualizationCapture {
    pub fn record_placement(&mut self, _row: i32, _col: i32, _stored: u32, _iteration: usize) {
        match *self {}
    }

    pub fn record_removal(&mut self, _row: i32, _col: i32, _iteration: usize) {
        match *self {}
    }
}

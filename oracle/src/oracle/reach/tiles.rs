// Stands at the end of spatial/tiles.rs (see build.rs): its private steps, and an index over any tile list.

impl TileExtractor {
    pub fn reach_rotate_90(tile: &Tile) -> Tile {
        Self::rotate_90(tile)
    }

    pub fn reach_reflect(tile: &Tile) -> Tile {
        Self::reflect(tile)
    }

    pub fn reach_deduplicate_tiles(tiles: Vec<Tile>) -> Vec<Tile> {
        Self::deduplicate_tiles(tiles)
    }

    /// The index of a list that no extraction gave.
    pub fn reach_rules_of(tiles: Vec<Tile>, unique_cell_count: usize) -> BTreeMap<Vec<u8>, Vec<usize>> {
        let mut extractor = Self { source_tiles: tiles, source_tile_boolean_reference_rules: BTreeMap::new() };
        extractor.build_boolean_reference_rules(unique_cell_count);
        extractor.source_tile_boolean_reference_rules
    }
}

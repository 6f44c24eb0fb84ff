// Stands at the end of spatial/grid.rs (see build.rs): its private step.

impl GridState {
    pub fn reach_constrain_extension(
        &self,
        info: crate::spatial::extension::ExtensionInfo,
        bounds: &BoundingBox,
        offset: [i32; 2],
    ) -> crate::spatial::extension::ExtensionInfo {
        self.constrain_extension(info, bounds, offset)
    }
}

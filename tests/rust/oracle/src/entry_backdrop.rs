/// The private function of backdrop.rs.
pub fn run(config: &ConfigUniform, paths: &[Path], tiles: &mut [Tile]) {
    backdrop_main(config, &BumpAllocators::default(), paths, tiles);
}

/// The private function of path_count.rs.
pub fn run(bump: &mut BumpAllocators, lines: &[LineSoup], paths: &[Path], tiles: &mut [Tile], refs: &mut [SegmentCount]) {
    path_count_main(bump, lines, paths, tiles, refs);
}

/// The private function of path_tiling.rs.
pub fn run(
    bump: &mut BumpAllocators,
    refs: &[SegmentCount],
    lines: &[LineSoup],
    paths: &[Path],
    tiles: &[Tile],
    segments: &mut [PathSegment],
) {
    path_tiling_main(bump, refs, lines, paths, tiles, segments);
}

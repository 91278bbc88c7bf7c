/// The private functions of fine.rs.
pub fn run(config: &ConfigUniform, segments: &[PathSegment], output: &mut CpuTexture, ptcl: &[u32]) {
    fine_main(config, &[], segments, output, ptcl, &[]);
}

pub fn run_fill(area: &mut [f32], segments: &[PathSegment], words: [u32; 3], x_tile: f32, y_tile: f32) {
    let fill = CmdFill { size_and_rule: words[0], seg_data: words[1], backdrop: words[2] as i32 };
    fill_path(area, segments, &fill, x_tile, y_tile);
}

const SCENARIO: &[u8] = b"scenario 1
port 1 p1 chip 1
port 2 p2 chip 1
cmd port up p1
cmd port up p2
rx 1 02000000000b02000000000a88b50102
end
";

fn main() -> Result<(), switchbr::Fault> {
    let told = switchbr::replay(SCENARIO)?;
    print!("{told}");
    assert_eq!(switchbr::check(SCENARIO, told.as_bytes())?, None);
    Ok(())
}

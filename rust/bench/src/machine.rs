//! The name of the machine, from /proc/cpuinfo.

/// This machine's processor, and how many of its cores we may use.
pub fn this() -> String {
    let text = std::fs::read_to_string("/proc/cpuinfo").unwrap_or_default();
    let cores = std::thread::available_parallelism().map_or(1, |cores| cores.get());
    format!("{}, {cores} cores", name(&text))
}

/// The first line that names a model.
fn name(cpuinfo: &str) -> &str {
    let models = cpuinfo.lines().filter(|line| line.starts_with("model name"));
    let mut names = models.filter_map(|line| line.split_once(':'));
    names.next().map_or("a machine without a name", |(_, name)| name.trim())
}

#[cfg(test)]
mod tests {
    use super::*;

    #[test]
    fn the_model_is_found() {
        let text = "processor\t: 0\nmodel\t\t: 85\nmodel name\t: A Processor @ 2.00GHz\n";
        assert_eq!(name(text), "A Processor @ 2.00GHz");
        assert_eq!(name(""), "a machine without a name");
    }
}

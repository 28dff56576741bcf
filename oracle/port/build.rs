//! Links libstruo.a, which must export every call.

mod archive;

fn main() {
    let calls = ["struo_check", "struo_lower", "struo_netlist_check", "struo_netlist_node", "struo_netlist_record"];
    archive::link("struo", &calls);
}

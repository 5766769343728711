//! Graphviz, where it is installed: it has to read a picture of ours as it was meant.

use std::collections::BTreeSet;
use std::env;
use std::io::Write;
use std::path::{Path, PathBuf};
use std::process::{Command, Stdio};

/// The program `dot` of Graphviz.
pub struct Graphviz(PathBuf);

/// Bytes of the longest picture that is laid out too.
const MOST_LAID_OUT: usize = 1000;

/// What a text in the DOT language draws: nodes, and edges in the order of their numbers. An edge
/// that is there twice stays twice.
#[derive(Debug, PartialEq, Eq)]
pub struct Graph {
    nodes: BTreeSet<usize>,
    edges: Vec<(usize, usize)>,
}

impl Graph {
    /// By the lines that say a node or an edge; what else Graphviz writes is passed over.
    pub fn read(text: &str) -> Graph {
        let mut graph = Graph { nodes: BTreeSet::new(), edges: Vec::new() };
        for line in text.lines().filter_map(|line| line.trim().strip_suffix(';')) {
            let numbers: Vec<usize> = line.split(" -> ").filter_map(|n| n.parse().ok()).collect();
            graph.nodes.extend(&numbers);
            if let [first, second] = numbers[..] {
                graph.edges.push((first, second));
            }
        }
        graph.edges.sort();
        graph
    }
}

impl Graphviz {
    /// The first `dot` on the path that says it is Graphviz's, for ours has that name too.
    pub fn find() -> Option<Graphviz> {
        let path = env::var_os("PATH")?;
        let mut programs = env::split_paths(&path).map(|folder| folder.join("dot"));
        programs.find(|program| says_it_is_graphviz(program)).map(Graphviz)
    }

    /// `dot` lays out what it reads, which takes long: `nop`, beside it, only reads and writes.
    fn command(&self, picture: &[u8]) -> Command {
        if picture.len() <= MOST_LAID_OUT {
            let mut dot = Command::new(&self.0);
            dot.arg("-Tcanon");
            return dot;
        }
        Command::new(self.0.with_file_name("nop"))
    }

    /// The graph that it reads and writes back, or what it says against the text.
    fn read(&self, picture: &[u8]) -> Result<Graph, String> {
        let mut command = self.command(picture);
        command.stdin(Stdio::piped()).stdout(Stdio::piped()).stderr(Stdio::piped());
        let mut child = command.spawn().map_err(|error| format!("{command:?}: {error}"))?;
        // It reads the whole graph before it writes.
        let taken = child.stdin.take().expect("it is piped").write_all(picture);
        let ended = child.wait_with_output().map_err(|error| format!("{command:?}: {error}"))?;
        let said = String::from_utf8_lossy(&ended.stderr);
        if taken.is_err() || !ended.status.success() || !said.is_empty() {
            return Err(format!("{command:?} ended with {}, and says: {said}", ended.status));
        }
        Ok(Graph::read(&String::from_utf8_lossy(&ended.stdout)))
    }

    /// What Graphviz has against the picture, in words.
    pub fn difference(&self, picture: &[u8]) -> Option<String> {
        let meant = Graph::read(&String::from_utf8_lossy(picture));
        match self.read(picture) {
            Ok(graph) if graph == meant => None,
            Ok(_) => Some("Graphviz reads another graph".to_string()),
            Err(said) => Some(said),
        }
    }
}

fn says_it_is_graphviz(program: &Path) -> bool {
    let said = Command::new(program).arg("-V").stdin(Stdio::null()).output();
    said.is_ok_and(|said| String::from_utf8_lossy(&said.stderr).contains("graphviz"))
}

#[cfg(test)]
mod tests {
    use super::*;

    #[test]
    fn what_is_written_back_is_the_same_graph() {
        let ours = "digraph {\n0;\n1;\n12;\n0 -> 1;\n1 -> 0;\n}\n";
        let canon = "digraph {\n\tnode [label=\"\\N\"];\n\t1 -> 0;\n\t0 -> 1;\n\t12;\n}\n";
        assert_eq!(Graph::read(ours), Graph::read(canon));
        for other in [
            "digraph {\n0;\n1;\n0 -> 1;\n1 -> 0;\n}\n",
            "digraph {\n0;\n1;\n12;\n0 -> 1;\n}\n",
            "digraph {\n0;\n1;\n12;\n0 -> 1;\n0 -> 1;\n1 -> 0;\n}\n",
        ] {
            assert_ne!(Graph::read(ours), Graph::read(other));
        }
    }
}

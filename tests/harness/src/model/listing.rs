//! The listing: all nodes by path in byte order.

use super::state::{text, Node, State};

impl State {
    /// Every line, without its byte 10.
    pub fn listing(&self) -> Vec<Vec<u8>> {
        let mut nodes: Vec<(Vec<u8>, &Node)> = self.nodes.iter().map(|(path, node)| (text(path), node)).collect();
        nodes.sort_by(|a, b| a.0.cmp(&b.0));
        nodes.into_iter().map(|(path, node)| line(path, node)).collect()
    }
}

/// Path, d or f, owner, group, mode, revision, tag path or `-`, tag revision or 0, content.
fn line(path: Vec<u8>, node: &Node) -> Vec<u8> {
    let kind = if node.is_directory() { 'd' } else { 'f' };
    let (tag_path, tag_revision) = match &node.tag {
        Some(tag) => (text(&tag.path), tag.revision),
        None => (b"-".to_vec(), 0),
    };
    let mut bytes = path;
    bytes.extend(format!(",{kind},{},{},{:04o},{},", node.owner, node.group, node.mode, node.revision).bytes());
    bytes.extend(tag_path);
    bytes.extend(format!(",{tag_revision},").bytes());
    bytes.extend(&node.content);
    bytes
}

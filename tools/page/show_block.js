// Shows a block, given as the plain data that block.js describes, on a page with the elements of view.html: in place of the block that was
// shown before, if there was one.

let shownViewer = null;

function showBlock(data, page) {
  if (shownViewer) shownViewer.close();
  page.body.dataset.violations = data.violations ? (data.violations.length ? 'some' : 'none') : 'unknown';
  const viewer = new Viewer(new Block(data), page);
  new Controls(viewer, page);
  new Search(viewer, page);
  new Switches(viewer, page);
  new ViolationList(viewer, page);
  shownViewer = viewer;
  return viewer;
}

"""What tools/from_html is made of: the tree of a page, its styles, the sizes of its images, the document."""

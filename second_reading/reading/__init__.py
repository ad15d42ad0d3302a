"""CSS 2.2 read a second time, apart from the crates; read `report` first."""

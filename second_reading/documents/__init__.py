"""Random run documents, each settled by its kind, a seed and a number; `kinds` lists the kinds."""

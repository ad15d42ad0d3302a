"""Wrong versions of the modules of `reading`, each with one mistake, for `wrong_readings`."""

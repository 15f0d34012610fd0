"""The parts of pinkctl, one tool for the image of a drive: check, export, import, backup, mv, salvage, shell, shapes, serve, cluster."""

"""Lines of scripts and reports with their bytes written for people."""

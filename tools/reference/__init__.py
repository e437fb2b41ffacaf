"""The reference in Python for what `scene shell` answers: it follows lines by their answers, and works out the rest."""

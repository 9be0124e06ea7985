"""What tools/walks.py is made of: source.py reads the crates, terms.py says what a parameter is in a proof, text.py fills proof.txt and lending.txt."""

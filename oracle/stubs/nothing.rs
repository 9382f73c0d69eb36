// Stands for the original's file modules (table and ledger on disk), which the oracle leaves out.

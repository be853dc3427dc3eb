/* Prints the lines of the calls on VCF lines. */
void vcf_lines(void);

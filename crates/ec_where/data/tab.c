int main(void)
{
	return @;
}

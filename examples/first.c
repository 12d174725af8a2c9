int main(){putchar('A');return 0;}

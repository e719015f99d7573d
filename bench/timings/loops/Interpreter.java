public class Interpreter {
    public static void main(String[] args) {
        int[] code = {0, 0, 1, 31, 5, 0, 1, 2, 4, 0, 0, 1, 1, 1, 8, 4, 1, 0, 1, 6, 0, 7};
        int[] locals = {7, 1000000};
        int[] stack = new int[8];
        int top = 0;
        int at = 0;
        boolean going = true;
        while (going) {
            switch (code[at++]) {
                case 0: stack[top++] = locals[code[at++]]; break;
                case 1: stack[top++] = code[at++]; break;
                case 2: top--; stack[top - 1] = stack[top - 1] + stack[top]; break;
                case 3: top--; stack[top - 1] = stack[top - 1] ^ stack[top]; break;
                case 4: locals[code[at++]] = stack[--top]; break;
                case 5: top--; stack[top - 1] = stack[top - 1] * stack[top]; break;
                case 6: at = stack[--top] == 0 ? at + 1 : code[at]; break;
                case 8: top--; stack[top - 1] = stack[top - 1] - stack[top]; break;
                default: going = false;
            }
        }
        System.out.println(locals[0]);
    }
}

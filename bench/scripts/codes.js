// kind: loops
// sizes: 30 2500
// steps: 17579 1410659
var size = 2500;
// a machine of its own: codes with an operand in two arrays, a stack, and a switch in a loop
var PUSH = 0, LOAD = 1, STORE = 2, ADD = 3, SUB = 4, MUL = 5, MOD = 6, LESS = 7, JUMP = 8, UNLESS = 9, TELL = 10, END = 11;
function run(codes, operands, places) {
  var stack = [], top = 0, at = 0, told = "", code, k;
  for (;;) {
    code = codes[at]; k = operands[at]; at++;
    switch (code) {
      case PUSH: stack[top++] = k; break;
      case LOAD: stack[top++] = places[k]; break;
      case STORE: places[k] = stack[--top]; break;
      case ADD: top--; stack[top - 1] = stack[top - 1] + stack[top]; break;
      case SUB: top--; stack[top - 1] -= stack[top]; break;
      case MUL: top--; stack[top - 1] *= stack[top]; break;
      case MOD: top--; stack[top - 1] %= stack[top]; break;
      case LESS: top--; stack[top - 1] = stack[top - 1] < stack[top]; break;
      case JUMP: at = k; break;
      case UNLESS: if (!stack[--top]) at = k; break;
      case TELL: told += stack[--top] + ";"; break;
      case END: return told;
      default: throw new Error("code " + code);
    }
  }
}
// i = 0, s = 1; while (i < size) { s = (s * 31 + i) % 65521; i = i + 1; } tell s, tell i - s
var codes = [PUSH, STORE, PUSH, STORE, LOAD, PUSH, LESS, UNLESS, LOAD, PUSH, MUL, LOAD, ADD, PUSH, MOD, STORE,
  LOAD, PUSH, ADD, STORE, JUMP, LOAD, TELL, LOAD, LOAD, SUB, TELL, END];
var operands = [0, 0, 1, 1, 0, size, 0, 21, 1, 31, 0, 0, 0, 65521, 0, 1, 0, 1, 0, 0, 4, 1, 0, 0, 1, 0, 0, 0];
print(run(codes, operands, [0, 0]));

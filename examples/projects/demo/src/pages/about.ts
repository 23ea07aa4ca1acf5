export default () => VERSION;
